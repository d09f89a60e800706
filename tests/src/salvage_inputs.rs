//! Damaged streams for the random runs of salvage, and what a call is lent.

use crate::buffer_inputs::short_recording;
use crate::ogg::HEAD;
use crate::random::Random;
use crate::salvage::{Rooms, Saved, COLUMNS};
use crate::salvage_damages::DAMAGES;
use crate::salvage_pages::{plain_list, plain_pages, PLAIN_HEADERS};
use crate::salvage_stream::Stream;

/// A damaged stream, and the ways in which it was damaged.
pub struct Damaged {
    pub bytes: Vec<u8>,
    pub ways: Vec<&'static str>,
}

/// A recording, or a list of plain pages, with some damages.
pub fn damaged(random: &mut Random) -> Damaged {
    let mut stream = if random.one_in(2) {
        let list = plain_list(random);
        Stream::of(plain_pages(random, &list), PLAIN_HEADERS)
    } else {
        let recording = short_recording(random);
        let pages = recording.pages.into_iter().map(|written| written.page);
        Stream::of(pages, recording.headers)
    };
    let count = match random.below(16) {
        0 => 0,
        1..=6 => 1,
        7..=11 => 2,
        12..=14 => 3,
        _ => random.within(4..=8),
    };
    let mut ways = Vec::new();
    for _ in 0..count {
        let way = random.pick(DAMAGES);
        (way.apply)(random, &mut stream);
        ways.push(way.name);
    }
    Damaged {
        bytes: stream.bytes(),
        ways,
    }
}

/// What a call is lent: mostly enough, and then often just enough.
pub fn rooms(random: &mut Random, length: usize, told: &Result<Saved, u32>) -> Rooms {
    let work = length / HEAD;
    let needed = |saved: &Saved| (saved.bytes.len(), saved.lines.len());
    let (output, lines) = told.as_ref().map_or((length, length / 7 + 1), needed);
    let mut rooms = Rooms {
        work: enough(random, work),
        output: enough(random, output),
        columns: [lines; COLUMNS].map(|lines| enough(random, lines)),
    };
    match random.below(24) {
        0 => rooms.work = too_few(random, work),
        1 => rooms.output = too_few(random, output),
        2..=3 => *rooms.columns.each_mut()[random.below(COLUMNS)] = too_few(random, lines),
        4 => rooms.columns = [0; COLUMNS],
        5 => {
            rooms.work = too_few(random, work);
            rooms.output = too_few(random, output);
        }
        _ => (),
    }
    rooms
}

fn enough(random: &mut Random, least: usize) -> usize {
    least + random.below(4) * random.below(40)
}

fn too_few(random: &mut Random, least: usize) -> usize {
    match random.below(3) {
        0 => 0,
        1 => random.below(least.max(1)),
        _ => least.saturating_sub(1),
    }
}
