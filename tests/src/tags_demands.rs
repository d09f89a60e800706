//! The ways to ask the writer of comment headers for what is none: lengths that do not sum up, and
//! packets that are too long.

use crate::head::UNFIT_FIELDS;
use crate::inputs::{change, Change};
use crate::random::Random;
use crate::tags::{JoinedTags, LONGEST};
use crate::tags_damages::RIGHT;

const UNFIT: &[u32] = &[UNFIT_FIELDS];

/// No change: whether the header is right is up to how it was made.
pub const AS_IT_IS: Change<JoinedTags> = change("as it is", RIGHT, |_, _| ());

pub const DEMANDS: &[Change<JoinedTags>] = &[
    change("a length one too high", UNFIT, |random, joined| {
        *any_length(random, joined) += 1
    }),
    change("a byte more than the lengths", UNFIT, |_, joined| {
        joined.text.push(b'a')
    }),
    change("a byte less than the lengths", UNFIT, |_, joined| {
        if joined.text.pop().is_none() {
            joined.lengths.push(1)
        }
    }),
    change("a length too many", UNFIT, |random, joined| {
        let more = random.within(1..=300) as u64;
        joined.lengths.push(more)
    }),
    change("text and no lengths", UNFIT, |_, joined| {
        joined.text.push(b'a');
        joined.lengths.clear()
    }),
    change("lengths and no text", UNFIT, |random, joined| {
        *any_length(random, joined) += 1;
        joined.text.clear()
    }),
    change("a length longer by 2^32", UNFIT, |random, joined| {
        *any_length(random, joined) += 1 << 32
    }),
    change(
        "a length longer by a power of two",
        UNFIT,
        |random, joined| *any_length(random, joined) += 1 << random.below(64),
    ),
    change("lengths that wrap in 64 bits", UNFIT, |random, joined| {
        let more = random.within(1..=20) as u64;
        joined.lengths.extend([more, 0u64.wrapping_sub(more)])
    }),
    change("halves that wrap in 64 bits", UNFIT, |random, joined| {
        for _ in 0..2 {
            let place = random.within(0..=joined.lengths.len());
            joined.lengths.insert(place, 1 << 63)
        }
    }),
    change("a length that wraps in 64 bits", UNFIT, |random, joined| {
        let length = any_length(random, joined);
        let rest = *length + 1;
        *length = u64::MAX;
        joined.lengths.push(rest)
    }),
    change(
        "lengths that sum to 2^64 and the text",
        UNFIT,
        |_, joined| joined.lengths.extend([1 << 62; 4]),
    ),
    change("one byte too long a packet", UNFIT, |random, joined| {
        fill(random, joined, LONGEST + 1)
    }),
    change("too long a packet", UNFIT, |random, joined| {
        let length = random.within(LONGEST + 1..=LONGEST + 5_000);
        fill(random, joined, length)
    }),
];

/// The packet as long as may be, or nearly.
pub const LONG: &[Change<JoinedTags>] = &[
    change("the longest packet", RIGHT, |random, joined| {
        fill(random, joined, LONGEST)
    }),
    change("nearly the longest packet", RIGHT, |random, joined| {
        let length = random.within(LONGEST - 20..=LONGEST - 1);
        fill(random, joined, length)
    }),
];

/// Makes the packet exactly so long: by its vendor, by a comment, or by comments of no bytes.
pub fn fill(random: &mut Random, joined: &mut JoinedTags, length: usize) {
    let more = length - joined.length();
    match random.below(3) {
        0 => joined.vendor.resize(joined.vendor.len() + more, b'v'),
        1 => {
            joined.lengths.push(more as u64 - 4);
            joined.text.resize(joined.text.len() + more - 4, b'c')
        }
        _ => {
            joined.lengths.resize(joined.lengths.len() + more / 4, 0);
            joined.vendor.resize(joined.vendor.len() + more % 4, b'v')
        }
    }
}

/// Any of the lengths, the first one made if there is none.
fn any_length<'a>(random: &mut Random, joined: &'a mut JoinedTags) -> &'a mut u64 {
    if joined.lengths.is_empty() {
        joined.lengths.push(0)
    }
    let place = random.below(joined.lengths.len());
    &mut joined.lengths[place]
}
