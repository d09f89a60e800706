//! Holds the building of an index to the rules in docs/RULES.md (section 15): of random streams, whole,
//! with a wrong page, damaged, and cut; and into lists of any lengths, of which nothing is written under
//! a refusal.

use embulgri_tests::buffer_inputs::{buffer, expected, short_recording, Expected};
use embulgri_tests::damages::DAMAGES;
use embulgri_tests::feeding::REFUSALS;
use embulgri_tests::index::{index, COLUMNS};
use embulgri_tests::index_calls::{check_build, check_count};
use embulgri_tests::inputs::page_bytes;
use embulgri_tests::judging::{judge, HEADERS_INCOMPLETE};
use embulgri_tests::ogg::NO_ROOM;
use embulgri_tests::random::{times, Random};
use embulgri_tests::reader::Reader;
use embulgri_tests::tally::{Classes, Spread, Tally};

const STREAMS: usize = 20_000;
const ANY_BYTES: usize = 20_000;
const LEAST_OF_EACH: usize = 20;
const LEAST_OF_EACH_CLASS: usize = 100;
const LEAST_OF_EACH_COUNT: usize = 100;
const SMALL_STREAMS: usize = 16;
const LONGEST_SMALL: usize = 1_500;

/// The lists of an index.
const LISTS: [&str; COLUMNS] = ["granules", "places", "sequences"];

/// A stream is never refused for lack of room to feed, nor for what an opened reader lacks.
const NEVER: [u32; 2] = [1, 19];

/// A stream in a buffer, and how it was made.
struct Stream {
    bytes: Vec<u8>,
    name: String,
}

/// The bytes of a recording's pages.
fn bytes_of(pages: &[Expected]) -> Vec<u8> {
    pages.iter().flat_map(|page| page.bytes.clone()).collect()
}

/// A stream: whole, with a wrong page or damaged, cut between two pages, or cut anywhere.
fn stream(random: &mut Random) -> Stream {
    let recording = short_recording(random);
    let pages = expected(Reader::started(), &recording.pages);
    let mut bytes = bytes_of(&pages);
    let name = match random.below(16) {
        0..=6 => "whole".to_string(),
        7..=13 => {
            let wrong = buffer(random, &pages);
            bytes = wrong.bytes;
            wrong.name
        }
        14 => {
            let some = random.below(pages.len() + 1);
            bytes = bytes_of(&pages[..some]);
            format!("{some} pages")
        }
        _ => {
            bytes.truncate(random.below(bytes.len()));
            format!("cut at {}", bytes.len())
        }
    };
    Stream { bytes, name }
}

/// Lengths of the lists for so many records, and what they are.
fn rooms(random: &mut Random, records: usize) -> ([usize; COLUMNS], String) {
    let more = records + random.within(1..=20);
    let (room, name) = match random.below(8) {
        0..=3 => (records, "exact"),
        4..=5 => (more, "longer"),
        6 if records > 0 => (random.below(records), "shorter"),
        _ => return unequal(random, records),
    };
    ([room; COLUMNS], format!("lists {name}"))
}

/// Lengths of which one is another than the two others.
fn unequal(random: &mut Random, records: usize) -> ([usize; COLUMNS], String) {
    let room = records + random.below(3);
    let mut rooms = [room; COLUMNS];
    let list = random.below(COLUMNS);
    let is_short = room > 0 && random.one_in(2);
    rooms[list] = match (is_short, random.one_in(2)) {
        (true, true) => room - 1,
        (true, false) => random.below(room),
        (false, true) => room + 1,
        (false, false) => room + random.within(1..=20),
    };
    let name = if is_short { "shorter" } else { "longer" };
    (rooms, format!("{} alone {name}", LISTS[list]))
}

/// The classes of lists that come with whole streams and with others, and how these are answered.
fn classes() -> Vec<String> {
    let even = ["exact", "longer", "shorter"].map(|name| format!("lists {name}"));
    let uneven = LISTS.map(|list| ["longer", "shorter"].map(|n| format!("{list} alone {n}")));
    let lists = even.into_iter().chain(uneven.concat());
    lists
        .flat_map(|name| ["whole", "not whole"].map(|stream| format!("{name}, stream {stream}")))
        .collect()
}

#[test]
fn the_index_of_any_stream_is_built_by_the_rules() {
    let mut random = Random::of_run(141);
    let mut tally = Tally::default();
    let mut found = Classes::default();
    let mut counts: Spread<10> = Spread::default();
    for number in 0..STREAMS * times() {
        let Stream { bytes, name } = stream(&mut random);
        let case = format!("stream {number}, {name}");
        let records = check_count(&bytes, &case);
        let (rooms, lists) = rooms(&mut random, records);
        let told = check_build(&bytes, rooms, &case);
        tally.add(told.as_ref().err().copied().unwrap_or(0));
        let whole = judge(&bytes).is_ok();
        let stream = ["not whole", "whole"][usize::from(whole)];
        found.add(format!("{lists}, stream {stream}"));
        if let Ok(index) = told {
            counts.add(index.count().min(9) as u64);
        }
    }
    let refusals = REFUSALS.into_iter().filter(|n| !NEVER.contains(n));
    let refusals: Vec<u32> = refusals.chain([NO_ROOM, HEADERS_INCOMPLETE]).collect();
    tally.finish_by("indexes built", STREAMS, &refusals, LEAST_OF_EACH);
    found.finish(&classes(), LEAST_OF_EACH_CLASS);
    let name = "indexes built, by records (9: more)";
    counts.finish(name, 0, LEAST_OF_EACH_COUNT);
}

/// Small recordings with some records.
fn small_streams(random: &mut Random) -> Vec<Vec<u8>> {
    let mut streams = Vec::new();
    while streams.len() < SMALL_STREAMS {
        let recording = short_recording(random);
        let pages = expected(Reader::started(), &recording.pages);
        let bytes = bytes_of(&pages);
        if bytes.len() < LONGEST_SMALL && (2..=5).contains(&index(&bytes).count()) {
            streams.push(bytes);
        }
    }
    streams
}

#[test]
fn lists_of_all_lengths_hold_the_records_or_not() {
    let mut random = Random::of_run(142);
    for bytes in small_streams(&mut random) {
        let records = check_count(&bytes, "small");
        let most = records + 2;
        for granules in 0..=most {
            for places in 0..=most {
                for sequences in 0..=most {
                    let rooms = [granules, places, sequences];
                    let told = check_build(&bytes, rooms, "small");
                    let fits = granules >= records && rooms == [granules; COLUMNS];
                    assert_eq!(told.err(), (!fits).then_some(NO_ROOM), "{rooms:?}");
                }
            }
        }
    }
}

#[test]
fn a_stream_cut_at_every_byte_has_the_records_of_its_whole_pages() {
    let mut random = Random::of_run(143);
    for bytes in small_streams(&mut random) {
        let whole = index(&bytes);
        for cut in 0..=bytes.len() {
            let part = &bytes[..cut];
            let case = format!("cut at {cut} of {}", bytes.len());
            let records = check_count(part, &case);
            if let Ok(index) = check_build(part, [records; COLUMNS], &case) {
                assert_eq!(index.granules, whole.granules[..records], "{case}");
                assert_eq!(index.places, whole.places[..records], "{case}");
                assert_eq!(index.sequences, whole.sequences[..records], "{case}");
            }
        }
    }
}

#[test]
fn the_records_of_any_bytes_are_counted() {
    let mut random = Random::of_run(144);
    let mut counts: Spread<5> = Spread::default();
    for number in 0..ANY_BYTES * times() {
        let mut bytes = Vec::new();
        for _ in 0..random.below(8) {
            let mut page = page_bytes(&mut random);
            if random.one_in(8) {
                (random.pick(DAMAGES).apply)(&mut random, &mut page);
            }
            bytes.extend(page);
        }
        if random.one_in(4) {
            bytes.truncate(random.below(bytes.len() + 1));
        }
        let case = format!("bytes {number}");
        let records = check_count(&bytes, &case);
        let told = check_build(&bytes, [records; COLUMNS], &case);
        assert!(told.is_err(), "{case}");
        counts.add(records.min(4) as u64);
    }
    let name = "any bytes, by records (4: more)";
    counts.finish(name, 0, LEAST_OF_EACH_COUNT);
}
