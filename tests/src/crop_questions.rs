//! What calls that ask for the page to crop at are given.

use crate::crop::Whole;
use crate::random::Random;

/// What a call is given.
pub struct Question {
    /// The last page that may be answered, and the position.
    pub numbers: [u64; 2],
    /// What the two are.
    pub names: [&'static str; 2],
}

/// The limits that a question can have, and its positions.
pub const LIMITS: [&str; 4] = [
    "at a page",
    "before a page",
    "after a page",
    "past the pages",
];
pub const POSITIONS: [&str; 6] = [
    "at a packet's start",
    "before a packet's start",
    "after a packet's start",
    "zero",
    "the largest",
    "any",
];

/// A question about a packet of a stream, if there is one: about its start and its page, or about what is
/// just before or after these.
pub fn question(random: &mut Random, whole: &Whole) -> Question {
    let pages = whole.pages.len() as u64;
    let starts = (0..).zip(&whole.pages).flat_map(|(number, fed)| {
        let packets = fed.packets.iter();
        packets.map(move |packet| [number, packet.end - packet.length])
    });
    let starts: Vec<[u64; 2]> = starts.collect();
    let [page, start] = match starts.is_empty() {
        true => [random.number() % pages, random.field()],
        false => *random.pick(&starts),
    };
    let later = pages + random.field() % (u64::MAX - pages);
    let limits = [page, page.saturating_sub(1), page + 1, later];
    let around = [start, start.saturating_sub(1), start.saturating_add(1)];
    let [at, before, after] = around;
    let positions = [at, before, after, 0, u64::MAX, random.field() >> 1];
    let limit = random.below(LIMITS.len());
    let position = match random.below(10) {
        0..=3 => 0,
        4..=5 => 1,
        6 => 2,
        rest => rest - 4,
    };
    Question {
        numbers: [limits[limit], positions[position]],
        names: [LIMITS[limit], POSITIONS[position]],
    }
}
