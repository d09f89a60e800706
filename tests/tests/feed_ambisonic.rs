//! Streams of ambisonics, families 2 and 3, fed page by page: streams worked out by hand, headers up to
//! the longest that is taken, and random recordings.

use embulgri_tests::by_hand::{feed, page, page_of, NO_TAGS};
use embulgri_tests::calls::{check_head, found_head};
use embulgri_tests::feed_calls::{Feeder, ENOUGH};
use embulgri_tests::feeding::{CONTINUED, FIRST, LAST, LONG_PACKET, NO_GRANULE};
use embulgri_tests::head::{encode, Head, AMBISONICS, BAD_HEAD, BAD_MAPPING, MATRIX};
use embulgri_tests::head_inputs::{more_bytes, with_matrix, with_table};
use embulgri_tests::ogg;
use embulgri_tests::random::{times, Random};
use embulgri_tests::recording::{recording, Recording};
use embulgri_tests::recording_inputs::tiny;
use embulgri_tests::tags::LONGEST;
use embulgri_tests::tally::Classes;

const RECORDINGS: usize = 600;
const LEAST_OF_EACH_FAMILY: usize = 100;

/// An audio packet of three streams, of 960 samples in two frames each but for the last.
const THREE: &[u8] = &[0x01, 0x01, 0xaa, 0xbb, 0x01, 0x00, 0x08, 0xcc];

/// Headers of four channels in three streams, one of them coupled.
fn heads() -> [Head; 2] {
    let mut random = Random::of_run(111);
    let table = with_table(&mut random, AMBISONICS, 4, (3, 1));
    let matrix = with_matrix(&mut random, 4, (3, 1));
    [table, matrix].map(|head| Head {
        pre_skip: 312,
        ..head
    })
}

/// The answer to a header fed as the first page to a reader just started.
fn feed_first(feeder: &mut Feeder, packet: &[u8]) -> u32 {
    feeder.start();
    let page = page_of(FIRST, 0, 0, &[(packet.to_vec(), true)]);
    let case = format!("a header of {} bytes", packet.len());
    feeder.feed(&page, ENOUGH, case).err().unwrap_or(0)
}

#[test]
fn streams_of_ambisonics_are_listed() {
    for head in heads() {
        let mut feeder = Feeder::started();
        assert_eq!(feed_first(&mut feeder, &encode(&head)), 0);
        assert_eq!(feeder.reader().streams, 3);
        assert_eq!(feed(&mut feeder, &page(0, 0, 1, &[NO_TAGS])), Ok(vec![]));
        let first = feed(&mut feeder, &page(0, 1_920, 2, &[THREE; 2]));
        assert_eq!(first, Ok(vec![(960, 960, 648, 2), (1_920, 960, 960, 2)]));
        assert_eq!(feed(&mut feeder, &page(0, 2_880, 3, &[&[0x08]])), Err(15));
        let last = feed(&mut feeder, &page(LAST, 2_000, 3, &[THREE]));
        assert_eq!(last, Ok(vec![(2_880, 960, 80, 2)]));
        assert_eq!(feeder.totals(), [1_688, 312, 880, 0]);
    }
}

#[test]
fn readers_are_opened_by_the_headers_of_ambisonics_that_were_read() {
    for head in heads() {
        let found = found_head(&encode(&head));
        assert_eq!(found, head);
        let mut feeder = Feeder::of([9; 16]);
        assert_eq!(feeder.open(&found, "found"), 0);
        let begun = page(CONTINUED, NO_GRANULE, 5, &[&[0x01; 255]]);
        assert_eq!(feed(&mut feeder, &begun), Ok(vec![]));
        let next = feed(&mut feeder, &page(CONTINUED, 9_000, 6, &[&[7], THREE]));
        assert_eq!(next, Ok(vec![(9_000, 960, 960, 2)]));
    }
}

#[test]
fn the_longest_header_is_fed_whole_on_the_first_page() {
    let mut random = Random::of_run(112);
    let mut head = with_matrix(&mut random, 198, (155, 0));
    assert_eq!(head.length(), 61_401);
    let mut feeder = Feeder::started();
    let before = feeder.carry().to_vec();
    assert_eq!(feed_first(&mut feeder, &encode(&head)), 0);
    assert_eq!(feeder.carry(), before);
    assert_eq!(feed(&mut feeder, &page(0, 0, 1, &[NO_TAGS])), Ok(vec![]));
    let sound = tiny(&mut random, 155);
    let listed = feed(&mut feeder, &page(0, 90_000, 2, &[&sound.bytes]));
    let kept = sound.samples.saturating_sub(head.pre_skip);
    assert_eq!(listed, Ok(vec![(90_000, sound.samples, kept, 1)]));
    for version in [2, 15] {
        head.version = version;
        let mut packet = encode(&head);
        packet.resize(LONGEST, 0xff);
        assert_eq!(feed_first(&mut feeder, &packet), 0);
        assert_eq!(feeder.reader().streams, 155);
        packet.push(0xff);
        assert_eq!(feed_first(&mut feeder, &packet), LONG_PACKET);
        // Alone a header may have bytes past the longest packet.
        assert_eq!(check_head(&packet, "alone").as_ref(), Ok(&head));
    }
}

#[test]
fn a_matrix_past_the_longest_packet_is_refused_by_its_length() {
    let mut random = Random::of_run(113);
    let mut feeder = Feeder::started();
    for (channels, counts) in [(227, (136, 0)), (121, (127, 127)), (255, (255, 255))] {
        let mut head = with_matrix(&mut random, channels, counts);
        for version in [1, 2, 15] {
            head.version = version;
            let packet = encode(&head);
            assert_eq!(check_head(&packet, "alone"), Err(BAD_HEAD));
            for length in [LONGEST - 1, LONGEST] {
                assert_eq!(feed_first(&mut feeder, &packet[..length]), BAD_HEAD);
            }
            let on_a_page = packet.len().min(65_024);
            assert_eq!(
                feed_first(&mut feeder, &packet[..on_a_page]),
                LONG_PACKET,
                "{on_a_page} bytes"
            );
        }
    }
}

#[test]
fn wrong_headers_of_ambisonics_are_refused_when_fed() {
    let mut random = Random::of_run(114);
    let mut feeder = Feeder::started();
    for channels in [2, 5, 228, 255] {
        for mut head in [
            with_table(&mut random, AMBISONICS, channels, (3, 1)),
            with_matrix(&mut random, channels, (3, 1)),
        ] {
            assert_eq!(feed_first(&mut feeder, &encode(&head)), BAD_MAPPING);
            let mut long = [encode(&head), more_bytes(&mut random)].concat();
            assert_eq!(feed_first(&mut feeder, &long), BAD_HEAD);
            head.version = 2;
            long[..21].copy_from_slice(&encode(&head)[..21]);
            assert_eq!(feed_first(&mut feeder, &long), BAD_MAPPING);
        }
    }
}

/// A random recording of family 2 or 3.
fn ambisonic_recording(random: &mut Random) -> Recording {
    loop {
        let recording = recording(random);
        if [AMBISONICS, MATRIX].contains(&recording.head.family) {
            return recording;
        }
    }
}

#[test]
fn random_recordings_of_ambisonics_are_fed_whole_and_from_any_audio_page() {
    let mut random = Random::of_run(115);
    let mut families = Classes::default();
    for number in 0..RECORDINGS * times() {
        let recording = ambisonic_recording(&mut random);
        let pages: Vec<Vec<u8>> = recording
            .pages
            .iter()
            .map(|written| ogg::encode(&written.page))
            .collect();
        let case = format!("recording {number}");
        let mut full = Feeder::started();
        for page in &pages {
            assert!(full.feed(page, ENOUGH, &case).is_ok(), "{case}");
        }
        let head = found_head(&recording.pages[0].page.body);
        assert_eq!(head, recording.head, "{case}");
        let from = random.within(recording.headers..=pages.len());
        let mut opened = Feeder::of([random.number(); 16]);
        assert_eq!(opened.open(&head, &case), 0, "{case}");
        for page in &pages[from..] {
            // An end with nothing to stand on is refused; both readers agree on it.
            let _ = opened.feed(page, ENOUGH, &case);
        }
        families.add(format!("recordings of family {}", head.family));
    }
    let names = [AMBISONICS, MATRIX].map(|family| format!("recordings of family {family}"));
    families.finish(&names, LEAST_OF_EACH_FAMILY);
}
