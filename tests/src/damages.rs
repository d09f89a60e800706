//! The ways to damage the bytes of a page before it is read.

use crate::inputs::{change, page_bytes, Change};
use crate::ogg::{self, CHECKSUM, HEAD, NOT_A_PAGE, WRONG_CHECKSUM};
use crate::random::Random;
use std::ops::Range;

pub const UNDAMAGED: Change<Vec<u8>> = change("undamaged", &[0], |_, _| ());

/// The ways to damage the bytes of a page. A change of the count or of one lacing value makes
/// another length, so it is never a matter of the checksum alone.
pub const DAMAGES: &[Change<Vec<u8>>] = &[
    change(
        "a bit of the capture pattern flipped",
        &[NOT_A_PAGE],
        |random, page| flip(random, page, 0..4),
    ),
    change(
        "a bit of the version flipped",
        &[NOT_A_PAGE],
        |random, page| flip(random, page, 4..5),
    ),
    change(
        "a bit of the flags flipped",
        &[WRONG_CHECKSUM],
        |random, page| flip(random, page, 5..6),
    ),
    change(
        "a bit of the granule position flipped",
        &[WRONG_CHECKSUM],
        |random, page| flip(random, page, 6..14),
    ),
    change(
        "a bit of the serial flipped",
        &[WRONG_CHECKSUM],
        |random, page| flip(random, page, 14..18),
    ),
    change(
        "a bit of the sequence flipped",
        &[WRONG_CHECKSUM],
        |random, page| flip(random, page, 18..22),
    ),
    change(
        "a bit of the checksum flipped",
        &[WRONG_CHECKSUM],
        |random, page| flip(random, page, CHECKSUM),
    ),
    change(
        "a bit of the number of lacing values flipped",
        &[NOT_A_PAGE],
        |random, page| flip(random, page, 26..27),
    ),
    change(
        "a bit of a lacing value flipped",
        &[0, NOT_A_PAGE],
        |random, page| flip_in_lacing(random, page),
    ),
    change(
        "a bit of the body flipped",
        &[0, WRONG_CHECKSUM],
        |random, page| flip_in_body(random, page),
    ),
    change("the checksum zero", &[0, WRONG_CHECKSUM], |_, page| {
        page[CHECKSUM].fill(0)
    }),
    change(
        "the checksum's bytes in the other order",
        &[0, WRONG_CHECKSUM],
        |_, page| page[CHECKSUM].reverse(),
    ),
    change(
        "two lacing values exchanged",
        &[0, WRONG_CHECKSUM],
        |random, page| exchange_lacing_values(random, page),
    ),
    change("cut in the head", &[NOT_A_PAGE], |random, page| {
        page.truncate(random.below(HEAD))
    }),
    change("cut after the head", &[0, NOT_A_PAGE], |_, page| {
        page.truncate(HEAD)
    }),
    change("cut anywhere", &[NOT_A_PAGE], |random, page| {
        page.truncate(random.below(page.len()))
    }),
    change(
        "cut anywhere, the checksum right again",
        &[NOT_A_PAGE],
        cut_and_seal,
    ),
    change("one byte too few", &[NOT_A_PAGE], |_, page| {
        page.truncate(page.len() - 1)
    }),
    change("one byte too many", &[NOT_A_PAGE], |random, page| {
        page.push(random.byte())
    }),
    change(
        "several bytes too many, the checksum right again",
        &[NOT_A_PAGE],
        extend_and_seal,
    ),
    change("two pages joined", &[NOT_A_PAGE], |random, page| {
        page.extend(page_bytes(random))
    }),
    change("random bytes", &[NOT_A_PAGE], |random, page| {
        *page = random_bytes(random)
    }),
    change(
        "random bytes after the capture pattern and version 0",
        &[0, NOT_A_PAGE, WRONG_CHECKSUM],
        random_page,
    ),
    change(
        "another version, the checksum right again",
        &[NOT_A_PAGE],
        |random, page| another_value(random, page, 4),
    ),
    change(
        "another number of lacing values, the checksum right again",
        &[NOT_A_PAGE],
        |random, page| another_value(random, page, 26),
    ),
];

/// Flips one bit in the places given, if there are any.
fn flip(random: &mut Random, page: &mut [u8], places: Range<usize>) {
    if !places.is_empty() {
        page[places.start + random.below(places.len())] ^= 1 << random.below(8);
    }
}

fn body_start(page: &[u8]) -> usize {
    HEAD + usize::from(page[HEAD - 1])
}

fn flip_in_lacing(random: &mut Random, page: &mut [u8]) {
    let values = HEAD..body_start(page);
    flip(random, page, values);
}

fn flip_in_body(random: &mut Random, page: &mut [u8]) {
    let body = body_start(page)..page.len();
    flip(random, page, body);
}

/// Leaves the sum of the values as it was.
fn exchange_lacing_values(random: &mut Random, page: &mut [u8]) {
    let end = body_start(page);
    if end > HEAD {
        page.swap(random.within(HEAD..=end - 1), random.within(HEAD..=end - 1));
    }
}

/// Cuts a page short of its end but after the place of its checksum.
fn cut_and_seal(random: &mut Random, page: &mut Vec<u8>) {
    page.truncate(random.within(CHECKSUM.end..=page.len() - 1));
    ogg::seal(page);
}

fn extend_and_seal(random: &mut Random, page: &mut Vec<u8>) {
    let more = random.within(1..=64);
    page.extend(random.bytes(more));
    ogg::seal(page);
}

fn random_bytes(random: &mut Random) -> Vec<u8> {
    let length = random.below(400);
    random.bytes(length)
}

/// Random bytes but for the capture pattern, the version and a small number of lacing values; the
/// length is often the one that the values ask for, and the checksum is sometimes right.
fn random_page(random: &mut Random, page: &mut Vec<u8>) {
    *page = random.bytes(HEAD + 4 + 4 * 255);
    page[..5].copy_from_slice(b"OggS\0");
    page[HEAD - 1] = random.below(5) as u8;
    let end = body_start(page);
    let length = end + ogg::sum(&page[HEAD..end]);
    page.truncate(length);
    if random.one_in(4) {
        page.pop();
    }
    if random.one_in(4) {
        ogg::seal(page);
    }
}

/// Changes one byte of the head and makes the checksum right again.
fn another_value(random: &mut Random, page: &mut [u8], place: usize) {
    page[place] ^= random.within(1..=255) as u8;
    ogg::seal(page);
}
