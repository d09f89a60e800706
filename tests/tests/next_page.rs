//! Holds the search for the next page to RFC 3533 and the rules in docs/RULES.md (section 16): the least
//! place at which a whole page with a right checksum starts.

use embulgri_tests::buffer_inputs::{buffer, expected, short_recording};
use embulgri_tests::buffer_pages::page_end;
use embulgri_tests::ffi;
use embulgri_tests::inputs::page_bytes;
use embulgri_tests::ogg::{self, HEAD};
use embulgri_tests::random::{times, Random};
use embulgri_tests::reader::Reader;
use embulgri_tests::tally::Classes;

const BUFFERS: usize = 20_000;
const STREAMS: usize = 4_000;
const LEAST_OF_EACH: usize = 1_000;

/// What the answers can be.
const CLASSES: [&str; 4] = [
    "page at the place asked",
    "page later",
    "no page",
    "start past the buffer",
];

/// Whether a whole page with a right checksum starts at a place.
fn starts_page(bytes: &[u8], at: usize) -> bool {
    let end = page_end(bytes, at as u64);
    bytes[at..].starts_with(b"OggS") && end.is_some_and(|end| ogg::read(&bytes[at..end]).is_ok())
}

/// The library's answer, held to the rules.
fn next(bytes: &[u8], from: usize, case: &str) -> usize {
    let found = ffi::next_page(bytes, from as u64) as usize;
    let told = (from..bytes.len()).find(|&at| starts_page(bytes, at));
    assert_eq!(found, told.unwrap_or(bytes.len()), "from {from}, {case}");
    found
}

/// Counts an answer by its class.
fn count(classes: &mut Classes, bytes: &[u8], from: usize, found: usize) {
    let class = match () {
        () if from >= bytes.len() => 3,
        () if found == bytes.len() => 2,
        () if found == from => 0,
        () => 1,
    };
    classes.add(CLASSES[class].to_string());
}

/// Bytes with pages among them, some of them wrong, and capture patterns that begin none.
fn bytes_with_pages(random: &mut Random) -> Vec<u8> {
    let mut bytes = Vec::new();
    for _ in 0..random.below(5) {
        let count = random.below(40);
        match random.below(6) {
            0 => bytes.extend(random.bytes(count)),
            1 => bytes.extend(b"OggSOggS"),
            2 => bytes.extend(&b"OggS"[..random.below(4)]),
            _ => bytes.extend(page_bytes(random)),
        }
        if random.one_in(4) && !bytes.is_empty() {
            let place = random.below(bytes.len());
            bytes[place] ^= 1 << random.below(8);
        }
    }
    if random.one_in(3) {
        bytes.truncate(random.below(bytes.len() + 1));
    }
    bytes
}

#[test]
fn the_next_page_of_any_bytes_is_the_first_that_is_whole_and_right() {
    let mut random = Random::of_run(161);
    let mut classes = Classes::default();
    for number in 0..BUFFERS * times() {
        let bytes = bytes_with_pages(&mut random);
        let case = format!("buffer {number}");
        let any = random.below(bytes.len() + 3);
        for from in [0, any, bytes.len()] {
            let found = next(&bytes, from, &case);
            count(&mut classes, &bytes, from, found);
            if found < bytes.len() {
                let found = next(&bytes, found, &case);
                count(&mut classes, &bytes, found, found);
                next(&bytes, found + 1, &case);
            }
        }
        assert_eq!(ffi::next_page(&bytes, u64::MAX), bytes.len() as u64);
    }
    classes.finish(&CLASSES.map(str::to_string), LEAST_OF_EACH);
}

#[test]
fn the_pages_of_a_stream_are_found_one_after_the_other() {
    let mut random = Random::of_run(162);
    for number in 0..STREAMS * times() {
        let pages = expected(Reader::started(), &short_recording(&mut random).pages);
        let whole: Vec<u8> = pages.iter().flat_map(|page| page.bytes.clone()).collect();
        let case = format!("recording {number}");
        let mut at = 0;
        for page in &pages {
            assert_eq!(ffi::next_page(&whole, at as u64), at as u64, "{case}");
            at += page.bytes.len();
        }
        assert_eq!(ffi::next_page(&whole, at as u64), at as u64, "{case}");
        let wrong = buffer(&mut random, &pages);
        let from = random.below(wrong.bytes.len() + 1);
        next(&wrong.bytes, from, &format!("{case}, {}", wrong.name));
    }
}

#[test]
fn a_page_needs_all_of_its_bytes() {
    let mut page = b"OggS".to_vec();
    page.resize(HEAD, 0);
    ogg::seal(&mut page);
    let bytes = [b"x", &page[..]].concat();
    assert_eq!(next(&bytes, 0, "a page"), 1);
    assert_eq!(next(&bytes, 2, "after its start"), bytes.len());
    assert_eq!(next(&bytes[..HEAD], 0, "cut"), HEAD);
    assert_eq!(next(&[], 0, "empty"), 0);
}
