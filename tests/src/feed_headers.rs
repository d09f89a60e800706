//! The ways to make a header page wrong for the reader that it is fed to.

use crate::feed_faults::Case;
use crate::feeding::{HEADER_SHAPE, LAST, NO_GRANULE, WRONG_FLAGS, WRONG_GRANULE};
use crate::head::{BAD_HEAD, BAD_MAPPING};
use crate::head_damages;
use crate::head_inputs::{head, head_to_read, packet, version};
use crate::head_mappings;
use crate::inputs::{change, Change};
use crate::random::Random;
use crate::reader::Unfinished;
use crate::tags::{self, BAD_TAGS, LONGEST};
use crate::tags_damages;
use crate::tags_inputs::tags;

/// The ways to make the page of the identification header wrong.
pub const FIRST_PAGE: &[Change<Case>] = &[
    change(
        "an end mark on the first page",
        &[WRONG_FLAGS],
        |_, case| case.page.flags |= LAST,
    ),
    change(
        "no lacing values on the first page",
        &[HEADER_SHAPE],
        |_, case| case.put(&[]),
    ),
    change(
        "an empty packet after the header",
        &[HEADER_SHAPE],
        |_, case| case.page.lacing.push(0),
    ),
    change(
        "a packet after the header",
        &[HEADER_SHAPE],
        |random, case| put_after(random, case, true),
    ),
    change(
        "an unfinished packet after the header",
        &[HEADER_SHAPE],
        |random, case| put_after(random, case, false),
    ),
    change("an unfinished header", &[HEADER_SHAPE], |random, case| {
        case.put(&[(random.bytes(255), false)])
    }),
    change(
        "a granule where the first header completes",
        &[WRONG_GRANULE],
        put_granule,
    ),
    change("a wrong header", &[BAD_HEAD], |random, case| {
        let head = head_to_read(random);
        let mut packet = packet(random, &head);
        let damage = random.pick(head_damages::DAMAGES);
        (damage.apply)(random, &mut packet);
        packet.truncate(LONGEST);
        case.put(&[(packet, true)])
    }),
    change("an empty header", &[BAD_HEAD], |_, case| {
        case.put(&[(Vec::new(), true)])
    }),
    change("a comment header first", &[BAD_HEAD], |random, case| {
        case.put(&[(tags::encode(&tags(random)), true)])
    }),
    change("a wrong mapping", &[BAD_MAPPING], |random, case| {
        let mut head = head(random);
        let damage = random.pick(head_mappings::WRONG_MAPPINGS);
        (damage.apply)(random, &mut head);
        head.version = version(random);
        case.put(&[(packet(random, &head), true)])
    }),
];

/// The ways to make a page of the comment header wrong.
pub const COMMENT_PAGE: &[Change<Case>] = &[
    change(
        "an end mark on a comment page",
        &[WRONG_FLAGS],
        |_, case| case.page.flags |= LAST,
    ),
    change(
        "no lacing values on a comment page",
        &[HEADER_SHAPE],
        |random, case| {
            case.put(&[]);
            case.page.granule = *random.pick(&[0, NO_GRANULE])
        },
    ),
    change(
        "an empty packet after the comments",
        &[HEADER_SHAPE],
        |_, case| {
            complete(case);
            case.page.lacing.push(0)
        },
    ),
    change(
        "a packet after the comments",
        &[HEADER_SHAPE],
        |random, case| {
            complete(case);
            put_after(random, case, true)
        },
    ),
    change(
        "an unfinished packet after the comments",
        &[HEADER_SHAPE],
        |random, case| {
            complete(case);
            put_after(random, case, false)
        },
    ),
    change(
        "a granule where the comments complete",
        &[WRONG_GRANULE],
        |random, case| {
            complete(case);
            put_granule(random, case)
        },
    ),
    change(
        "a granule where the comments do not complete",
        &[WRONG_GRANULE],
        |random, case| {
            case.put(&[(random.bytes(255), false)]);
            case.page.granule = *random.pick(&[0, 1, NO_GRANULE - 1, 1 << 63])
        },
    ),
    change("wrong comments", &[BAD_TAGS], |random, case| {
        let mut tags = tags(random);
        let damage = random.pick(tags_damages::WRONG_CHANGES);
        (damage.apply)(random, &mut tags);
        put_comments(case, tags::encode(&tags))
    }),
    change("damaged comments", &[BAD_TAGS], |random, case| {
        let mut packet = tags::encode(&tags(random));
        let damage = random.pick(tags_damages::DAMAGES);
        (damage.apply)(random, &mut packet);
        put_comments(case, packet)
    }),
    change("any bytes as comments", &[BAD_TAGS], |random, case| {
        let length = random.below(600);
        put_comments(case, random.bytes(length))
    }),
];

/// Makes the packet on a page of the comment header complete.
fn complete(case: &mut Case) {
    if case.page.granule != 0 {
        case.page.granule = 0;
        match case.page.lacing.len() {
            255 => case.put(&[(Vec::new(), true)]),
            _ => case.page.lacing.push(0),
        }
    }
}

/// Puts a packet in place of the comments. If some of them are held, it is their end only.
fn put_comments(case: &mut Case, packet: Vec<u8>) {
    let is_whole = case.reader.unfinished == Unfinished::Nothing;
    let start = if is_whole { 0 } else { packet.len() / 2 };
    case.put(&[(packet[start..].to_vec(), true)]);
    case.page.granule = 0;
}

/// Puts a granule position on a page where a header completes.
fn put_granule(random: &mut Random, case: &mut Case) {
    let any = random.number();
    case.page.granule = *random.pick(&[1, NO_GRANULE, 1 << 32, 1 << 63, any | 1]);
}

fn put_after(random: &mut Random, case: &mut Case, ends: bool) {
    let mut pieces = case.pieces();
    let length = if ends { random.within(1..=300) } else { 255 };
    pieces.push((random.bytes(length), ends));
    if case.page.lacing.len() < 250 {
        case.put(&pieces);
    }
}
