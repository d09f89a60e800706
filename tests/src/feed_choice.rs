//! Which way to make a page wrong suits the reader that it is fed to, and what is lent.

use crate::damages::{self, UNDAMAGED};
use crate::feed_audio::{DROPPED, EARLY_ENDS, ENDS_ON_NOTHING, GRANULES, MIXED, PACKETS, SMALL};
use crate::feed_calls::{Room, ENOUGH, MOST_CARRY, MOST_LIST};
use crate::feed_faults::{Case, FIELDS, LONG, LONG_HELD, SERIALS, SHORT};
use crate::feed_headers::{COMMENT_PAGE, FIRST_PAGE};
use crate::feeding::{LIST, LISTS};
use crate::inputs::Change;
use crate::ogg;
use crate::random::Random;
use crate::reader::{Phase, Position, Reader, Unfinished};
use crate::recording::Written;
use crate::tags::LONGEST;

/// All the ways to make a page wrong.
pub const WAYS: [&[Change<Case>]; 14] = [
    SHORT,
    FIELDS,
    SERIALS,
    LONG,
    LONG_HELD,
    FIRST_PAGE,
    COMMENT_PAGE,
    GRANULES,
    DROPPED,
    PACKETS,
    MIXED,
    SMALL,
    EARLY_ENDS,
    ENDS_ON_NOTHING,
];

/// Room that is enough: mostly no more than is asked.
pub fn room(random: &mut Random) -> Room {
    if !random.one_in(4) {
        return ENOUGH;
    }
    Room {
        carry: random.within(LONGEST..=MOST_CARRY),
        lists: [(); LISTS].map(|()| random.within(LIST..=MOST_LIST)),
    }
}

/// A way to make a page wrong for the reader that expects it.
fn way(random: &mut Random, case: &Case) -> &'static Change<Case> {
    let ways = match random.below(16) {
        0 => SHORT,
        1..=2 => FIELDS,
        3 if random.one_in(2) => match case.reader.unfinished {
            Unfinished::Held(_) => LONG_HELD,
            _ => LONG,
        },
        _ => *random.pick(&ways_of_phase(case)),
    };
    random.pick(ways)
}

fn ways_of_phase(case: &Case) -> Vec<&'static [Change<Case>]> {
    let reader = &case.reader;
    match reader.phase {
        Phase::First => return vec![FIRST_PAGE],
        Phase::Comment => return vec![COMMENT_PAGE, COMMENT_PAGE, COMMENT_PAGE, SERIALS],
        _ => (),
    }
    let mut ways = vec![GRANULES, PACKETS, SMALL];
    match reader.position {
        Position::Unset => ways.extend([EARLY_ENDS; 2]),
        Position::Joined => ways.extend([ENDS_ON_NOTHING; 2]),
        Position::At(_) => (),
    }
    if reader.streams > 1 {
        ways.extend([MIXED; 2]);
    }
    let is_opened = reader.phase == Phase::Opened;
    if !is_opened {
        ways.push(SERIALS);
    }
    if reader.unfinished == Unfinished::Dropped || is_opened && case.is_continued() {
        ways.extend([DROPPED; 4]);
    }
    ways
}

/// What is to be fed: a page's bytes, the room lent, and how it was made.
pub struct Fault {
    pub bytes: Vec<u8>,
    pub room: Room,
    pub name: String,
    /// The way that was taken, if it was only one.
    pub way: Option<&'static Change<Case>>,
}

/// Makes a page wrong for a reader that expects it, mostly in one way.
pub fn fault(random: &mut Random, reader: Reader, written: &Written) -> Fault {
    let right = Case {
        page: written.page.clone(),
        room: room(random),
        reader,
        samples: written.samples(),
    };
    let mut wrong = right.clone();
    let count = match random.below(8) {
        0 => 0,
        1..=2 => 2,
        _ => 1,
    };
    let ways: Vec<_> = (0..count).map(|_| way(random, &right)).collect();
    for way in &ways {
        (way.apply)(random, &mut wrong);
    }
    let damage = match count == 0 || random.one_in(24) {
        true => random.pick(damages::DAMAGES),
        false => &UNDAMAGED,
    };
    let mut bytes = ogg::encode(&wrong.page);
    (damage.apply)(random, &mut bytes);
    let names: Vec<&str> = ways.iter().map(|way| way.name).collect();
    let is_damaged = damage.name != UNDAMAGED.name;
    Fault {
        bytes,
        room: wrong.room,
        name: format!("{names:?}, {}", damage.name),
        way: ways.first().copied().filter(|_| count == 1 && !is_damaged),
    }
}
