//! What the writer of pages is asked for: ways to turn a legal page into what is no page. And the
//! lengths of any writer's output.

use crate::inputs::{change, Change};
use crate::ogg::{self, Page, ILLEGAL_PAGE, NO_ROOM};
use crate::random::Random;

/// What comes of a legal page is up to the room.
pub const LEGAL: Change<Page> = change("a legal page", &[0, NO_ROOM], |_, _| ());

/// The ways to ask the writer for what is no page.
pub const DEMANDS: &[Change<Page>] = &[
    change("256 lacing values", &[ILLEGAL_PAGE], |_, page| {
        more_values(page, 256)
    }),
    change(
        "257 to 1,023 lacing values",
        &[ILLEGAL_PAGE],
        |random, page| more_values(page, random.within(257..=1023)),
    ),
    change(
        "a body one byte longer than the sum",
        &[ILLEGAL_PAGE],
        |random, page| page.body.push(random.byte()),
    ),
    change(
        "a body one byte shorter than the sum",
        &[ILLEGAL_PAGE],
        shorten_body,
    ),
    change(
        "a body longer than the sum by 256",
        &[ILLEGAL_PAGE],
        |random, page| page.body.extend(random.bytes(256)),
    ),
    change(
        "a body longer than the sum by 65,536",
        &[ILLEGAL_PAGE],
        |random, page| page.body.extend(random.bytes(65_536)),
    ),
    change("lacing values and no body", &[ILLEGAL_PAGE], only_lacing),
    change("a body and no lacing values", &[ILLEGAL_PAGE], only_body),
    change("flags 8, the least above 7", &[ILLEGAL_PAGE], |_, page| {
        page.flags = 8
    }),
    change("flags 255", &[ILLEGAL_PAGE], |_, page| page.flags = 255),
    change(
        "legal flags with one bit set that a byte cannot hold",
        &[ILLEGAL_PAGE],
        |random, page| page.flags |= 1 << random.within(8..=63),
    ),
    change("flags 256", &[ILLEGAL_PAGE], |_, page| page.flags = 256),
    change("flags 2^63", &[ILLEGAL_PAGE], |_, page| {
        page.flags = 1 << 63
    }),
    change("random flags above 7", &[ILLEGAL_PAGE], |random, page| {
        page.flags = random.number() | 8
    }),
];

/// Adds values of 0, which leave the sum as it was, until there are `count`.
fn more_values(page: &mut Page, count: usize) {
    page.lacing.resize(count, 0);
}

fn shorten_body(_: &mut Random, page: &mut Page) {
    if page.body.pop().is_none() {
        page.lacing.truncate(254);
        page.lacing.push(1);
    }
}

fn only_lacing(random: &mut Random, page: &mut Page) {
    let count = random.within(0..=254);
    page.lacing = random.bytes(count);
    page.lacing.push(random.within(1..=255) as u8);
    page.body.clear();
}

fn only_body(random: &mut Random, page: &mut Page) {
    page.lacing.clear();
    page.body.push(random.byte());
}

/// The lengths of a writer's output, from the length needed, and what comes of them if the input is
/// legal.
pub const ROOMS: &[Change<usize>] = &[
    change("exactly as long", &[0], |_, _| ()),
    change("longer by one", &[0], |_, room| *room += 1),
    change("longer by 1 to 64", &[0], |random, room| {
        *room += random.within(1..=64)
    }),
    change("as for the longest page", &[0], |_, room| {
        *room = (*room).max(ogg::LONGEST)
    }),
    change("shorter by one", &[NO_ROOM], |_, room| *room -= 1),
    change("nothing", &[NO_ROOM], |_, room| *room = 0),
    change("anything shorter", &[NO_ROOM], |random, room| {
        *room = random.below(*room)
    }),
];
