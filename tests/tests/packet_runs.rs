//! Holds the reading of audio packets to an independent implementation: on packets cut short and
//! changed at every place, on every number of streams, and on random ones.

use embulgri_tests::calls::check_packet;
use embulgri_tests::inputs::shifted;
use embulgri_tests::opus::{Contents, BAD_STREAMS, ILLEGAL_PACKET, MIXED_LENGTHS};
use embulgri_tests::packet_damages::{DAMAGES, UNDAMAGED};
use embulgri_tests::packet_inputs::{audio, audio_of};
use embulgri_tests::packet_set::legal_set;
use embulgri_tests::random::Random;
use embulgri_tests::tally::Tally;

const CASES: usize = 240_000;
const LEAST_CASES: usize = 200_000;

/// Numbers of streams that no audio packet has. The low bits of most are a legal number.
const BAD_NUMBERS: [u64; 10] = [
    0,
    256,
    257,
    511,
    0x1_0001,
    0x8000_0001,
    0x1_0000_0001,
    0x1_0000_0000_0001,
    1 << 63 | 1,
    u64::MAX,
];

/// The number that goes with what the rules tell.
fn answer_of(told: Result<Contents, u32>) -> u32 {
    told.err().unwrap_or(0)
}

#[test]
fn packets_cut_short_at_every_place_are_read_as_the_rules_say() {
    let mut tally = Tally::default();
    for audio in legal_set(&mut Random::of_run(21)) {
        let (bytes, streams) = (audio.bytes(), audio.streams);
        assert_eq!(audio.contents.samples, 960);
        assert_eq!(check_packet(&bytes, streams, "whole"), Ok(audio.contents));
        for length in 0..bytes.len() {
            // What was cut off lies after the bytes that are lent.
            tally.add(answer_of(check_packet(&bytes[..length], streams, "cut")));
        }
    }
    tally.print("packets cut short");
}

#[test]
fn packets_with_any_one_byte_changed_are_read_as_the_rules_say() {
    let mut tally = Tally::default();
    for audio in legal_set(&mut Random::of_run(22)) {
        let (mut bytes, streams) = (audio.bytes(), audio.streams);
        for place in 0..bytes.len() {
            let right = bytes[place];
            for other in (0..=255).filter(|&byte| byte != right) {
                bytes[place] = other;
                let case = format_args!("{other} at {place} in place of {right}");
                tally.add(answer_of(check_packet(&bytes, streams, case)));
            }
            bytes[place] = right;
        }
    }
    tally.print("packets with a byte changed");
}

#[test]
fn every_number_of_streams_is_read_and_one_more_or_fewer_as_the_rules_say() {
    let mut random = Random::of_run(23);
    for streams in 1..=255 {
        for _ in 0..8 {
            let audio = audio_of(&mut random, streams);
            let bytes = audio.bytes();
            let answer = check_packet(&bytes, audio.streams, "the right number");
            assert_eq!(answer, Ok(audio.contents), "{streams} streams");
            for told in [audio.streams - 1, audio.streams + 1] {
                let answer = check_packet(&bytes, told, "another number");
                assert_eq!(answer == Err(BAD_STREAMS), told == 0 || told == 256);
            }
        }
    }
}

#[test]
fn other_numbers_of_streams_are_refused_whatever_the_bytes() {
    let mut random = Random::of_run(24);
    for streams in BAD_NUMBERS {
        let told = [vec![], vec![0x00], vec![0x03, 0x00], vec![0x00, 0x00, 0x08]];
        let legal = (1..=255).map(|streams| audio_of(&mut random, streams).bytes());
        for bytes in told.into_iter().chain(legal) {
            let answer = check_packet(&bytes, streams, "no such number");
            assert_eq!(answer, Err(BAD_STREAMS), "{streams} streams");
        }
    }
}

#[test]
fn reading_gives_the_number_and_the_contents_that_the_rules_say() {
    let mut random = Random::of_run(25);
    let mut tally = Tally::default();
    for number in 0..CASES {
        let mut audio = audio(&mut random);
        let damage = match random.one_in(2) {
            true => &UNDAMAGED,
            false => random.pick(DAMAGES),
        };
        (damage.apply)(&mut random, &mut audio);
        let (buffer, start) = shifted(&mut random, &audio.bytes());
        let case = format!("input {number}: {}", damage.name);
        let answer = answer_of(check_packet(&buffer[start..], audio.streams, &case));
        assert!(damage.answers.contains(&answer), "{answer}, {case}");
        tally.add(answer);
    }
    let refusals = [BAD_STREAMS, ILLEGAL_PACKET, MIXED_LENGTHS];
    tally.finish("packets", LEAST_CASES, &refusals);
}
