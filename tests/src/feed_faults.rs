//! The ways to make a page wrong for the reader that it is fed to, whatever the page: in its fields,
//! in its packets' lengths, and in what the call is lent.

use crate::feed_calls::Room;
use crate::feeding::{
    CONTINUED, FIRST, LISTS, LONG_PACKET, OTHER_SERIAL, OUT_OF_SEQUENCE, SHORT_ROOM,
    WRONG_CONTINUED, WRONG_FLAGS,
};
use crate::inputs::{change, Change};
use crate::ogg::Page;
use crate::pieces::{pieces, put_pieces};
use crate::random::Random;
use crate::reader::{Reader, Unfinished};
use crate::tags::LONGEST;

/// A page that is to be fed to a reader that expects it, and what the call is lent.
#[derive(Clone)]
pub struct Case {
    pub page: Page,
    pub room: Room,
    pub reader: Reader,
    /// The samples of the packets that the page lists.
    pub samples: u64,
}

impl Case {
    /// The pieces of packets on the page, and which of them end.
    pub fn pieces(&self) -> Vec<(Vec<u8>, bool)> {
        pieces(&self.page)
            .iter()
            .map(|piece| (piece.bytes.to_vec(), piece.ends))
            .collect()
    }

    pub fn put(&mut self, pieces: &[(Vec<u8>, bool)]) {
        put_pieces(&mut self.page, pieces);
    }

    pub fn is_continued(&self) -> bool {
        self.page.flags & CONTINUED != 0
    }

    /// The first piece, if the page continues a packet.
    pub fn continuing(&self) -> Vec<(Vec<u8>, bool)> {
        let mut pieces = self.pieces();
        pieces.truncate(usize::from(self.is_continued()));
        pieces
    }
}

/// The ways to lend too little.
pub const SHORT: &[Change<Case>] = &[
    change("a carry one byte short", &[SHORT_ROOM], |_, case| {
        case.room.carry = LONGEST - 1
    }),
    change("a short carry", &[SHORT_ROOM], |random, case| {
        case.room.carry = random.below(LONGEST)
    }),
    change("no carry", &[SHORT_ROOM], |_, case| case.room.carry = 0),
    change("end stamps one short", &[SHORT_ROOM], |_, case| {
        case.room.lists[0] = 254
    }),
    change("lengths one short", &[SHORT_ROOM], |_, case| {
        case.room.lists[1] = 254
    }),
    change("kept counts one short", &[SHORT_ROOM], |_, case| {
        case.room.lists[2] = 254
    }),
    change("frames one short", &[SHORT_ROOM], |_, case| {
        case.room.lists[3] = 254
    }),
    change("a short list", &[SHORT_ROOM], |random, case| {
        case.room.lists[random.below(LISTS)] = random.below(255)
    }),
    change("no place in a list", &[SHORT_ROOM], |random, case| {
        case.room.lists[random.below(LISTS)] = 0
    }),
];

/// The ways to make the fields of any page wrong.
pub const FIELDS: &[Change<Case>] = &[
    change("the sequence before", &[OUT_OF_SEQUENCE], |_, case| {
        case.page.sequence = case.page.sequence.wrapping_sub(1)
    }),
    change("the sequence after", &[OUT_OF_SEQUENCE], |_, case| {
        case.page.sequence = case.page.sequence.wrapping_add(1)
    }),
    change(
        "a bit of the sequence",
        &[OUT_OF_SEQUENCE],
        |random, case| case.page.sequence ^= 1 << random.below(32),
    ),
    change("an unknown flag", &[WRONG_FLAGS], |random, case| {
        case.page.flags |= 8 << random.below(5)
    }),
    change("unknown flags", &[WRONG_FLAGS], |random, case| {
        case.page.flags |= u64::from(random.byte()) | 8
    }),
    change("the first mark turned", &[WRONG_FLAGS], |_, case| {
        case.page.flags ^= FIRST
    }),
    change(
        "the continued mark turned",
        &[WRONG_CONTINUED],
        |_, case| case.page.flags ^= CONTINUED,
    ),
];

/// The ways to make the serial of a page that is not the first wrong.
pub const SERIALS: &[Change<Case>] = &[
    change("a bit of the serial", &[OTHER_SERIAL], |random, case| {
        case.page.serial ^= 1 << random.below(32)
    }),
    change("another serial", &[OTHER_SERIAL], |random, case| {
        case.page.serial = random.field() as u32
    }),
];

/// The ways to make a packet too long.
pub const LONG: &[Change<Case>] = &[
    change(
        "a packet one byte too long",
        &[LONG_PACKET],
        |random, case| put_long(random, case, LONGEST + 1, true),
    ),
    change("a packet too long", &[LONG_PACKET], |random, case| {
        let length = random.within(LONGEST + 1..=254 * 255 + 254);
        put_long(random, case, length, true)
    }),
    change(
        "an unfinished packet too long",
        &[LONG_PACKET],
        |random, case| {
            let length = 255 * random.within(241..=255);
            put_long(random, case, length, false)
        },
    ),
];

/// The ways to make the packet that is held too long.
pub const LONG_HELD: &[Change<Case>] = &[
    change(
        "a held packet one byte too long",
        &[LONG_PACKET],
        |random, case| lengthen_held(random, case, 1, true),
    ),
    change("a held packet too long", &[LONG_PACKET], |random, case| {
        let more = random.within(1..=3_000);
        lengthen_held(random, case, more, true)
    }),
    change(
        "a held packet unfinished and too long",
        &[LONG_PACKET],
        |random, case| lengthen_held(random, case, 255, false),
    ),
];

/// Puts a long packet on the page, after the end of the one that it continues if there is room.
fn put_long(random: &mut Random, case: &mut Case, length: usize, ends: bool) {
    let mut pieces = Vec::new();
    if case.is_continued() {
        pieces.push((random.bytes(4), true));
    }
    let room = 255 * (255 - pieces.len());
    pieces.push((random.bytes(length.min(room)), ends));
    case.put(&pieces);
}

/// Makes the packet that is held longer than is allowed, by so many bytes or a few more.
fn lengthen_held(random: &mut Random, case: &mut Case, by: usize, ends: bool) {
    let Unfinished::Held(held) = case.reader.unfinished else {
        return;
    };
    let mut length = (LONGEST + by).saturating_sub(held as usize);
    if !ends {
        length = length.div_ceil(255) * 255;
    }
    case.put(&[(random.bytes(length.min(254 * 255)), ends)]);
}
