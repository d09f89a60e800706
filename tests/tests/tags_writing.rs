//! Holds the writing of comment headers to the rules in docs/PROMISES.md: lengths that sum up or do
//! not, packets at their greatest length, and each length of the output.

use embulgri_tests::head::UNFIT_FIELDS;
use embulgri_tests::ogg::NO_ROOM;
use embulgri_tests::random::Random;
use embulgri_tests::tags::{self, JoinedTags, Tags, LONGEST};
use embulgri_tests::tags_calls::found_tags;
use embulgri_tests::tags_damages::WRONG_CHANGES;
use embulgri_tests::tags_demands::fill;
use embulgri_tests::tags_inputs::{self, legal_set, NO_UTF8};
use embulgri_tests::tally::Tally;
use embulgri_tests::writing::{check_writing, written, Request};

/// Asks for a packet with an output that is long enough and with none, as what is no header is
/// refused first, and counts the answer.
fn write(joined: &JoinedTags, tally: &mut Tally, legal: bool, case: &str) {
    let exact = Request::exact(joined);
    let answer = check_writing(&exact, case);
    tally.add(answer);
    assert_eq!(answer, if legal { 0 } else { UNFIT_FIELDS }, "{case}");
    let nothing = Request { room: 0, ..exact };
    let answer = check_writing(&nothing, case);
    tally.add(answer);
    assert_eq!(answer, if legal { NO_ROOM } else { UNFIT_FIELDS }, "{case}");
}

#[test]
fn every_length_of_the_output_is_enough_or_too_short() {
    for tags in legal_set() {
        let joined = JoinedTags::of(&tags);
        for room in 0..=joined.length() + 300 {
            let request = Request {
                room,
                ..Request::exact(&joined)
            };
            let answer = check_writing(&request, "every length");
            let enough = room >= joined.length();
            assert_eq!(answer, if enough { 0 } else { NO_ROOM }, "{room} bytes");
        }
        assert_eq!(found_tags(&written(&joined)), tags);
    }
}

#[test]
fn texts_of_every_two_lengths_are_written_if_they_sum_up() {
    let mut tally = Tally::default();
    for length in 0..24 {
        for first in 0..24 {
            for second in 0..24 {
                let joined = JoinedTags {
                    vendor: Vec::new(),
                    text: vec![b'a'; length],
                    lengths: vec![first, second],
                };
                let legal = first + second == length as u64;
                write(&joined, &mut tally, legal, "two lengths");
            }
        }
    }
    tally.print("comment headers written of every two lengths");
}

#[test]
fn lengths_that_would_wrap_do_not_sum_up() {
    let mut tally = Tally::default();
    for length in [0u64, 1, 2, 3, 16, 255] {
        for bit in 0..64 {
            let power = 1 << bit;
            let wrap = |parts: &[u64]| {
                let sum = parts.iter().fold(0u64, |sum, &part| sum.wrapping_add(part));
                let last = length.wrapping_sub(sum);
                [parts, &[last]].concat()
            };
            // The sums of all these are the text's length modulo 2^64.
            let wrapping = [
                wrap(&[power]),
                wrap(&[u64::MAX - power]),
                wrap(&[u64::MAX, power]),
                wrap(&[1 << 63, 1 << 63, power]),
                wrap(&[power, u64::MAX, u64::MAX]),
                // And of this one modulo 2^32.
                vec![length, 1 << (32 + bit % 32)],
            ];
            for lengths in wrapping {
                let sum: u128 = lengths.iter().map(|&part| u128::from(part)).sum();
                let joined = JoinedTags {
                    vendor: b"v".to_vec(),
                    text: vec![b'a'; length as usize],
                    lengths,
                };
                let legal = sum == u128::from(length);
                write(&joined, &mut tally, legal, "lengths that wrap");
            }
        }
    }
    tally.print("comment headers written of lengths that wrap");
}

#[test]
fn packets_of_61440_bytes_are_written_and_longer_ones_are_not() {
    let mut random = Random::of_run(71);
    let mut tally = Tally::default();
    for number in 0..300 {
        let tags = tags_inputs::tags(&mut random);
        let length = match number % 6 {
            0..=1 => LONGEST,
            2 => LONGEST - 1 - random.below(30),
            3..=4 => LONGEST + 1,
            _ => LONGEST + 2 + random.below(10_000),
        };
        let mut joined = JoinedTags::of(&tags);
        fill(&mut random, &mut joined, length);
        write(&joined, &mut tally, length <= LONGEST, "a long packet");
        if length <= LONGEST {
            // Each comment asked for costs a whole reading, so those of very many are not.
            let packet = written(&joined);
            let found = match joined.lengths.len() < 100 {
                true => found_tags(&packet),
                false => tags::read(&packet).expect("a header").tags(&packet),
            };
            assert_eq!(JoinedTags::of(&found), joined);
        }
    }
    tally.print("comment headers written of 61,440 bytes and around");
}

#[test]
fn what_reading_refuses_is_not_written() {
    let mut random = Random::of_run(72);
    let mut tally = Tally::default();
    for change in WRONG_CHANGES {
        for _ in 0..500 {
            let mut tags = tags_inputs::tags(&mut random);
            (change.apply)(&mut random, &mut tags);
            write(&JoinedTags::of(&tags), &mut tally, false, change.name);
        }
    }
    for wrong in NO_UTF8 {
        let comments = [vec![b"a".to_vec()], vec![wrong.to_vec()]];
        for (vendor, comments) in [wrong, b"v"].into_iter().zip(comments) {
            let tags = Tags {
                vendor: vendor.to_vec(),
                comments,
            };
            write(&JoinedTags::of(&tags), &mut tally, false, "no UTF-8");
        }
    }
    tally.print("wrong comment headers to be written");
}

#[test]
fn characters_are_not_divided_between_comments() {
    let mut tally = Tally::default();
    for character in ["é", "€", "🍋"] {
        let text = [b"a=", character.as_bytes(), b"b"].concat();
        for place in 0..=text.len() {
            let joined = JoinedTags {
                vendor: Vec::new(),
                text: text.clone(),
                lengths: vec![place as u64, (text.len() - place) as u64],
            };
            let whole = str::from_utf8(&text[..place]).is_ok();
            write(&joined, &mut tally, whole, "a character divided");
        }
    }
    tally.print("comment headers written with a character divided or whole");
}
