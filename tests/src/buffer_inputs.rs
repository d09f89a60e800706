//! Buffers of several pages for the random runs, with wrong pages among them, cut or damaged, and
//! what a call that feeds them is lent.

use crate::feed_calls::{Room, MOST_CARRY, MOST_OF_PAGES};
use crate::feed_choice::fault;
use crate::feed_faults::Case;
use crate::feeding::{self, Lent, LIST, LISTS, SHORT_ROOM};
use crate::inputs::{change, Change};
use crate::ogg::{self, HEAD};
use crate::random::Random;
use crate::reader::Reader;
use crate::recording::{recording, Recording, Written};
use crate::tags::LONGEST;

/// The bytes of a recording that is short.
const SHORT: usize = 4_000;

/// The lengths that the lists have at most, where it matters how many pages fit.
const LISTS_OF: [usize; 8] = [
    LIST,
    LIST,
    LIST + 1,
    LIST + 4,
    LIST + 20,
    2 * LIST,
    2 * LIST + 1,
    MOST_OF_PAGES,
];

/// The ways to change the bytes of a buffer.
const CHANGES: &[Change<Vec<u8>>] = &[
    change("cut anywhere", &[], |random, bytes| {
        bytes.truncate(random.below(bytes.len() + 1))
    }),
    change("one byte short", &[], |_, bytes| {
        bytes.pop();
    }),
    change("few bytes after the pages", &[], |random, bytes| {
        let count = random.below(HEAD);
        bytes.extend(random.bytes(count))
    }),
    change("bytes after the pages", &[], |random, bytes| {
        let count = random.within(HEAD..=3 * HEAD);
        bytes.extend(random.bytes(count))
    }),
    change("the start of a page after them", &[], |random, bytes| {
        let count = random.below(bytes.len().min(400) + 1);
        bytes.extend_from_within(..count)
    }),
    change("any byte changed", &[], |random, bytes| {
        let place = random.below(bytes.len() + 1);
        if let Some(byte) = bytes.get_mut(place) {
            *byte ^= 1 << random.below(8);
        }
    }),
    change("a byte missing", &[], |random, bytes| {
        let place = random.below(bytes.len() + 1);
        if place < bytes.len() {
            bytes.remove(place);
        }
    }),
];

/// A buffer, what is lent with it, and how it was made.
pub struct Buffer {
    pub bytes: Vec<u8>,
    pub room: Room,
    pub name: String,
}

/// What a call is lent: mostly enough for a page, with lists of up to 1,024 places.
pub fn room(random: &mut Random) -> Room {
    let most = *random.pick(&LISTS_OF);
    let mut room = Room {
        carry: match random.below(32) {
            0 => *random.pick(&[0, 1, LONGEST - 1]),
            1..=8 => random.within(LONGEST..=MOST_CARRY),
            _ => LONGEST,
        },
        lists: [(); LISTS].map(|()| random.within(LIST..=most)),
    };
    if random.one_in(2) {
        room.lists = [most; LISTS];
    }
    if random.one_in(24) {
        room.lists[random.below(LISTS)] = *random.pick(&[0, 1, LIST - 1]);
    }
    room
}

/// A recording, seldom a long one, for the time it needs.
pub fn short_recording(random: &mut Random) -> Recording {
    loop {
        let recording = recording(random);
        let lengths = recording.pages.iter().map(|written| written.page.length());
        if lengths.sum::<usize>() < SHORT || random.one_in(12) {
            return recording;
        }
    }
}

/// A page, its bytes, and the reader that expects it.
pub struct Expected {
    pub written: Written,
    pub bytes: Vec<u8>,
    pub reader: Reader,
}

/// The pages that a reader expects, up to the first that it refuses with zeros in the carry buffer.
pub fn expected(first: Reader, pages: &[Written]) -> Vec<Expected> {
    let mut carry = vec![0; LONGEST];
    let mut lists = [[0; LIST]; LISTS];
    let mut reader = first;
    let mut expected = Vec::new();
    for written in pages {
        let bytes = ogg::encode(&written.page);
        let mut next = reader.clone();
        let mut lent = Lent {
            carry: &mut carry,
            lists: lists.each_mut().map(|list| &mut list[..]),
        };
        let told = feeding::feed(&mut next, &bytes, &mut lent);
        expected.push(Expected {
            written: written.clone(),
            bytes,
            reader,
        });
        if told.is_err() {
            break;
        }
        reader = next;
    }
    expected
}

/// A buffer of pages, often with one of them wrong.
pub fn buffer(random: &mut Random, pages: &[Expected]) -> Buffer {
    let wrong = random.below(2 * pages.len());
    let mut buffer = Buffer {
        bytes: Vec::new(),
        room: room(random),
        name: format!("{} pages", pages.len()),
    };
    for (place, page) in pages.iter().enumerate() {
        if place != wrong {
            buffer.bytes.extend(&page.bytes);
            continue;
        }
        let fault = fault(random, page.reader.clone(), &page.written);
        buffer.bytes.extend(fault.bytes);
        buffer.name += &format!(", page {place}: {}", fault.name);
        if fault.way.is_some_and(lends_too_little) {
            buffer.room = fault.room;
        }
    }
    if random.one_in(4) {
        let way = random.pick(CHANGES);
        (way.apply)(random, &mut buffer.bytes);
        buffer.name += &format!(", {}", way.name);
    }
    buffer
}

fn lends_too_little(way: &Change<Case>) -> bool {
    way.answers == [SHORT_ROOM]
}
