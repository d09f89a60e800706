//! Holds identification headers of every version to RFC 7845 (section 5.1), RFC 8486 and the rules in
//! docs/PROMISES.md: read alone, fed as the first page of a stream, and opened part way with.

use embulgri_tests::by_hand::page_of;
use embulgri_tests::calls::check_head;
use embulgri_tests::feed_calls::{Feeder, ENOUGH};
use embulgri_tests::feeding::{FIRST, HEADER_SHAPE, LONG_PACKET};
use embulgri_tests::head::{encode, Head, AMBISONICS, BAD_HEAD, BAD_MAPPING, UNFIT_FIELDS};
use embulgri_tests::head_inputs::{legal_set, with_matrix, with_table, without_table};
use embulgri_tests::random::Random;
use embulgri_tests::reader::NUMBERS;
use embulgri_tests::tags::LONGEST;
use embulgri_tests::tally::Tally;

/// The answers that reading a header can give.
const ANSWERS: [u32; 3] = [0, BAD_HEAD, BAD_MAPPING];

/// Headers of the known families and of an unknown one, at the ends of what they allow and past
/// them, each with whether its mapping is legal.
fn shapes(random: &mut Random) -> Vec<(Head, bool)> {
    let mut shapes = Vec::new();
    for (channels, legal) in [(0, false), (1, true), (2, true), (3, false)] {
        shapes.push((without_table(random, channels), legal));
    }
    for (channels, legal) in [(0, false), (1, true), (8, true), (9, false)] {
        shapes.push((with_table(random, 1, channels, (5, 3)), legal));
    }
    for (channels, legal) in [(0, false), (1, true), (255, true)] {
        shapes.push((with_table(random, 255, channels, (128, 127)), legal));
    }
    let ambisonic = [(0, false), (1, true), (2, false), (4, true), (5, false)];
    for (channels, legal) in ambisonic.into_iter().chain([(227, true), (228, false)]) {
        shapes.push((with_table(random, AMBISONICS, channels, (5, 3)), legal));
    }
    for (channels, legal) in ambisonic.into_iter().chain([(27, true), (28, false)]) {
        shapes.push((with_matrix(random, channels, (3, 1)), legal));
    }
    for channels in [0, 1, 2] {
        shapes.push((with_table(random, 4, channels, (1, 1)), false));
    }
    shapes
}

/// What is told of a header of so many bytes whose fields take `exact` of them.
fn answer(version: u64, length: usize, exact: usize, legal: bool) -> u32 {
    let is_head = match version {
        0 | 1 => length == exact,
        2..=15 => length >= exact,
        _ => false,
    };
    match (is_head, legal) {
        (false, _) => BAD_HEAD,
        (true, false) => BAD_MAPPING,
        (true, true) => 0,
    }
}

/// Gives `check` the bytes of every version of each shape, at the length of the fields, a few bytes
/// below and above it and many above it, with what must be told of them.
fn each_header(run: &str, mut check: impl FnMut(&[u8], u32, &str)) {
    let mut random = Random::of_run(35);
    let mut tally = Tally::default();
    for (mut head, legal) in shapes(&mut random) {
        for version in 0..=255 {
            head.version = version;
            let mut bytes = encode(&head);
            let exact = bytes.len();
            bytes.extend(random.bytes(300));
            for length in (exact - 3..=exact + 3).chain([exact + 300]) {
                let case = format!("{length} bytes for {exact} of {head:?}");
                let answer = answer(version, length, exact, legal);
                check(&bytes[..length], answer, &case);
                tally.add(answer);
            }
        }
    }
    tally.print(run);
    tally.has_all(&ANSWERS);
}

/// Feeds a header as the first page to a reader just started, and gives the answer.
fn feed_first(feeder: &mut Feeder, packet: Vec<u8>, ends: bool, case: &str) -> u32 {
    feeder.start();
    let page = page_of(FIRST, 0, 0, &[(packet, ends)]);
    feeder.feed(&page, ENOUGH, case).err().unwrap_or(0)
}

#[test]
fn every_version_is_read_at_the_lengths_that_it_allows() {
    each_header("headers of every version read", |packet, answer, case| {
        let told = check_head(packet, case).err().unwrap_or(0);
        assert_eq!(told, answer, "{case}");
    });
}

#[test]
fn every_version_is_fed_at_the_lengths_that_it_allows() {
    let mut feeder = Feeder::started();
    each_header("headers of every version fed", |packet, answer, case| {
        let told = feed_first(&mut feeder, packet.to_vec(), true, case);
        assert_eq!(told, answer, "{case}");
    });
}

#[test]
fn bytes_after_the_fields_change_nothing_up_to_the_longest_packet() {
    let mut random = Random::of_run(36);
    let mut feeder = Feeder::started();
    for head in legal_set(&mut random) {
        assert_eq!(feed_first(&mut feeder, encode(&head), true, "version 1"), 0);
        let fed = feeder.numbers();
        for version in [2, 3, 14, 15] {
            let head = Head {
                version,
                ..head.clone()
            };
            let fields = encode(&head);
            let lengths = [254, 255, 256, 509, 510, 511, LONGEST - 1, LONGEST];
            for length in lengths.into_iter().filter(|&n| n >= fields.len()) {
                let mut packet = fields.clone();
                packet.extend(random.bytes(length - fields.len()));
                assert_eq!(check_head(&packet, length).as_ref(), Ok(&head));
                assert_eq!(feed_first(&mut feeder, packet, true, "longer"), 0);
                assert_eq!(feeder.numbers(), fed, "{length} bytes of {head:?}");
            }
        }
    }
}

#[test]
fn longer_headers_are_one_packet_on_one_page() {
    let mut feeder = Feeder::started();
    for mut head in legal_set(&mut Random::of_run(37)) {
        for version in 2..=15 {
            head.version = version;
            let mut packet = encode(&head);
            packet.resize(510, 0);
            let page = page_of(FIRST, 0, 0, &[(packet.clone(), true), (vec![0], true)]);
            feeder.start();
            let told = feeder.feed(&page, ENOUGH, "a packet after the header");
            assert_eq!(told.err(), Some(HEADER_SHAPE));
            let answer = feed_first(&mut feeder, packet.clone(), false, "unfinished");
            assert_eq!(answer, HEADER_SHAPE);
        }
        let mut packet = encode(&head);
        packet.resize(LONGEST + 1, 0);
        let answer = feed_first(&mut feeder, packet.clone(), true, "a byte too many");
        assert_eq!(answer, LONG_PACKET);
        // Alone a header has no longest length.
        assert_eq!(check_head(&packet, "alone"), Ok(head));
    }
}

#[test]
fn readers_are_opened_by_the_versions_that_are_read_and_then_alike() {
    let mut random = Random::of_run(38);
    let mut tally = Tally::default();
    let mut feeder = Feeder::started();
    for mut head in legal_set(&mut random) {
        assert_eq!(feeder.open(&head, "version 1"), 0);
        let opened = feeder.numbers();
        let wide = (0..=15).flat_map(|low| [8, 16, 32, 63].map(|bit| low | 1 << bit));
        for version in (0..=255).chain(wide) {
            let before = [random.number(); NUMBERS];
            feeder.set(before);
            head.version = version;
            let (answer, after) = match version {
                0..=15 => (0, opened),
                _ => (UNFIT_FIELDS, before),
            };
            assert_eq!(feeder.open(&head, version), answer, "version {version}");
            assert_eq!(feeder.numbers(), after, "version {version}");
            tally.add(answer);
        }
    }
    tally.print("readers opened by every version");
}
