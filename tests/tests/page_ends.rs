//! Holds where a page of a buffer ends to RFC 3533 and the rules in docs/RULES.md.

use embulgri_tests::buffer_pages::page_end;
use embulgri_tests::by_hand::page;
use embulgri_tests::damages::DAMAGES;
use embulgri_tests::ffi;
use embulgri_tests::inputs::page_bytes;
use embulgri_tests::ogg::{self, HEAD};
use embulgri_tests::random::{times, Random};
use embulgri_tests::tally::Classes;

const BUFFERS: usize = 60_000;
const LEAST_OF_EACH: usize = 1_000;

/// What the answers can be.
const CLASSES: [&str; 5] = [
    "page ends in the buffer",
    "page ends with the buffer",
    "no page begins",
    "page not whole",
    "start past the buffer",
];

/// The library's answer, held to the rules.
fn end(bytes: &[u8], at: u64) -> u64 {
    let found = ffi::page_end(bytes, at);
    let told = page_end(bytes, at).map_or(0, |end| end as u64);
    assert_eq!(found, told, "at {at} of {} bytes", bytes.len());
    found
}

/// A page of these lacing values, with zeros for all else.
fn laced(lacing: &[u8]) -> Vec<u8> {
    let mut bytes = b"OggS".to_vec();
    bytes.resize(HEAD - 1, 0);
    bytes.push(lacing.len() as u8);
    bytes.extend(lacing);
    bytes.resize(bytes.len() + ogg::sum(lacing), 0);
    bytes
}

#[test]
fn a_page_of_no_lacing_values_has_27_bytes() {
    let bytes = laced(&[]);
    assert_eq!(end(&bytes, 0), 27);
    assert_eq!(end(&bytes[..26], 0), 0);
    assert_eq!(end(&[&bytes[..], &[1]].concat(), 0), 27);
    assert_eq!(end(&[], 0), 0);
}

#[test]
fn pages_one_after_the_other_end_where_the_next_begins() {
    let pages = [laced(&[3]), laced(&[255, 0]), laced(&[1; 255])];
    let bytes = [&b"xyz"[..], &pages.concat(), b"OggS"].concat();
    let ends = [3, 34, 318, 855];
    for pair in ends.windows(2) {
        assert_eq!(end(&bytes, pair[0]), pair[1]);
    }
    assert_eq!(end(&bytes, 855), 0);
    assert_eq!(end(&bytes, 0), 859);
}

#[test]
fn a_page_cut_at_any_byte_is_not_whole() {
    let mut longest = laced(&[255; 255]);
    longest.push(7);
    for bytes in [laced(&[0]), laced(&[255, 254]), laced(&[0; 255])] {
        for cut in 0..bytes.len() {
            assert_eq!(end(&bytes[..cut], 0), 0);
        }
        assert_eq!(end(&bytes, 0), bytes.len() as u64);
    }
    for cut in [26, 27, 28, 281, 282, 283, 537, 65_306] {
        assert_eq!(end(&longest[..cut], 0), 0);
    }
    assert_eq!(end(&longest[..65_307], 0), 65_307);
    assert_eq!(end(&longest, 0), 65_307);
}

#[test]
fn what_begins_no_page_is_taken_up_to_the_end() {
    for place in 0..4 {
        let mut bytes = laced(&[9, 9]);
        bytes[place] ^= 0x20;
        let all = bytes.len() as u64;
        assert_eq!(end(&bytes, 0), all);
        assert_eq!(end(&bytes[..27], 0), 27);
        assert_eq!(end(&bytes[..26], 0), 0);
    }
    let bytes = [0; 60];
    for at in 0..=33 {
        assert_eq!(end(&bytes, at), 60);
    }
    for at in 34..=60 {
        assert_eq!(end(&bytes, at), 0);
    }
}

#[test]
fn neither_the_version_nor_the_checksum_nor_a_flag_is_looked_at() {
    let right = page(2, 0, 0, &[b"abc"]);
    for place in 4..HEAD - 1 {
        let mut bytes = right.clone();
        bytes[place] ^= 0xff;
        assert_eq!(end(&bytes, 0), right.len() as u64);
    }
}

#[test]
fn no_page_starts_past_the_buffer() {
    let bytes = laced(&[]);
    let far = [
        27,
        28,
        1 << 31,
        1 << 32,
        (1 << 32) + 1,
        1 << 63,
        u64::MAX - 26,
        u64::MAX,
    ];
    for at in far {
        assert_eq!(end(&bytes, at), 0);
        assert_eq!(end(&[], at), 0);
    }
}

/// A start: mostly one of the pages', sometimes any near them, or far past the buffer.
fn start(random: &mut Random, starts: &[usize], length: usize) -> u64 {
    match random.below(8) {
        0 => random.below(length + 30) as u64,
        1 => random.field(),
        2 => random.number() << random.below(64),
        _ => *random.pick(starts) as u64,
    }
}

#[test]
fn pages_damaged_or_not_end_where_the_rules_say() {
    let mut random = Random::of_run(115);
    let mut classes = Classes::default();
    for _ in 0..BUFFERS * times() {
        let (mut bytes, mut starts) = (Vec::new(), Vec::new());
        for _ in 0..random.within(1..=3) {
            let mut page = page_bytes(&mut random);
            if random.one_in(3) {
                (random.pick(DAMAGES).apply)(&mut random, &mut page);
            }
            starts.push(bytes.len());
            bytes.extend(page);
        }
        if random.one_in(4) {
            bytes.truncate(random.below(bytes.len() + 1));
        }
        for _ in 0..4 {
            let at = start(&mut random, &starts, bytes.len());
            let found = end(&bytes, at);
            let rest = usize::try_from(at).ok().and_then(|at| bytes.get(at..));
            let class = match rest {
                None => 4,
                Some(_) if found == 0 => 3,
                Some(rest) if !rest.starts_with(b"OggS") => 2,
                Some(_) => usize::from(found == bytes.len() as u64),
            };
            classes.add(CLASSES[class].to_string());
        }
    }
    classes.finish(&CLASSES.map(str::to_string), LEAST_OF_EACH);
}
