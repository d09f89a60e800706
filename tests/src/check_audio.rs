//! The audio pages of streams for the random runs of checking, made to have some findings and no others.

use crate::feeding::{CONTINUED, LAST, MOST_GRANULE, NO_GRANULE};
use crate::ogg::Page;
use crate::random::Random;
use crate::recording::{lay, Written};
use crate::recording_inputs::{of_length, tiny, Sound};

/// The lengths of packets that mostly go over several pages.
const LONGER: [usize; 5] = [254, 255, 256, 300, 510];
/// The numbers of lacing values that pages take.
const CUTS: [[usize; 3]; 5] = [[1, 1, 1], [1, 1, 2], [1, 2, 4], [2, 4, 8], [255, 255, 255]];

/// How a stream is to end.
#[derive(Clone, Copy, Debug, PartialEq, Eq)]
pub enum End {
    Unmarked,
    /// Marked last, and with no more than the last packet trimmed.
    Marked,
    /// Marked last, and with more trimmed.
    LongTrim,
}

/// What audio pages are to have.
#[derive(Clone, Copy, Debug)]
pub struct Wanted {
    pub is_unfinished: bool,
    pub end: End,
    pub has_holes: bool,
}

impl Wanted {
    /// Any of the twelve, each as often.
    pub fn any(random: &mut Random) -> Wanted {
        Wanted {
            is_unfinished: random.one_in(2),
            end: *random.pick(&[End::Unmarked, End::Marked, End::LongTrim]),
            has_holes: random.one_in(2),
        }
    }

    pub fn without_findings() -> Wanted {
        Wanted {
            is_unfinished: false,
            end: End::Marked,
            has_holes: false,
        }
    }
}

/// Audio pages that have what is wanted, after a header of so many streams and with this pre-skip.
pub fn audio(random: &mut Random, wanted: Wanted, streams: u64, pre_skip: u64) -> Vec<Written> {
    loop {
        let mut pages = laid(random, wanted.is_unfinished, streams as usize);
        if !pages.is_empty() && date(random, wanted, &mut pages, pre_skip).is_some() {
            return pages;
        }
    }
}

/// Packets on pages, sometimes with none of them complete, and sometimes with bare pages at the end.
fn laid(random: &mut Random, is_unfinished: bool, streams: usize) -> Vec<Written> {
    let one_longer_in = *random.pick(&[3, 8, 100]);
    let count = random.below(10);
    let sound = |random: &mut Random| match random.one_in(one_longer_in) {
        true => {
            let length = *random.pick(&LONGER);
            of_length(random, streams, length)
        }
        false => tiny(random, streams),
    };
    let mut sounds: Vec<Sound> = (0..count).map(|_| sound(random)).collect();
    if is_unfinished {
        let length = 255 * random.pick(&[1, 1, 2, 4]);
        sounds.push(Sound {
            bytes: random.bytes(length),
            samples: 0,
        });
    }
    let cuts = random.pick(&CUTS);
    let mut pages = lay(random, &sounds, cuts, true);
    if is_unfinished {
        leave_open(random, &mut pages);
    }
    if random.one_in(8) {
        for _ in 0..random.within(1..=2) {
            pages.push(bare(&pages));
        }
    }
    pages
}

/// Takes off the last lacing value, which is 0, so that the last packet is left unfinished. Where the page
/// has no other, it stays without any or goes too.
fn leave_open(random: &mut Random, pages: &mut Vec<Written>) {
    let Written { page, lengths } = pages.last_mut().expect("a page");
    assert_eq!(page.lacing.pop(), Some(0));
    lengths.pop();
    if lengths.is_empty() {
        page.granule = NO_GRANULE;
    }
    if page.lacing.is_empty() && random.one_in(2) {
        pages.pop();
    }
}

/// A page of no lacing values after others.
fn bare(before: &[Written]) -> Written {
    let values = before.iter().flat_map(|written| &written.page.lacing);
    let is_open = values.last() == Some(&255);
    Written {
        page: Page {
            flags: if is_open { CONTINUED } else { 0 },
            granule: NO_GRANULE,
            serial: 0,
            sequence: 0,
            lacing: Vec::new(),
            body: Vec::new(),
        },
        lengths: Vec::new(),
    }
}

/// Gives granule positions to the pages where a packet completes, and the mark to the last page, if what
/// is wanted can be had.
fn date(random: &mut Random, wanted: Wanted, pages: &mut [Written], pre_skip: u64) -> Option<()> {
    let last = pages.len() - 1;
    let numbers = 0..pages.len();
    let completing: Vec<usize> = numbers.filter(|&n| !pages[n].lengths.is_empty()).collect();
    let holes = holes(random, wanted, &completing, last)?;
    let mut position = 0;
    for &number in &completing {
        let is_hole = holes.contains(&number);
        position += pages[number].samples() + if is_hole { hole(random) } else { 0 };
        pages[number].page.granule = position;
    }
    let is_first = completing.first() == Some(&last);
    let room = if is_first { pre_skip } else { 0 };
    let trim = match holes.contains(&last) {
        true => 0,
        false => trim(random, wanted.end, &pages[last], room)?,
    };
    let initial = match is_first {
        true if trim > 0 => 0,
        true => any_initial(random, position).max(pre_skip.saturating_sub(position)),
        false => any_initial(random, position),
    };
    for number in completing {
        pages[number].page.granule += initial;
    }
    if trim > 0 {
        pages[last].page.granule -= trim;
    }
    if wanted.end != End::Unmarked {
        pages[last].page.flags |= LAST;
    }
    Some(())
}

/// The pages that are to have a hole: none on the first where a packet completes, nor where samples are
/// to be trimmed.
fn holes(
    random: &mut Random,
    wanted: Wanted,
    completing: &[usize],
    last: usize,
) -> Option<Vec<usize>> {
    if !wanted.has_holes {
        return Some(Vec::new());
    }
    let later = completing.iter().skip(1).copied();
    let can: Vec<usize> = later
        .filter(|&number| number != last || wanted.end != End::LongTrim)
        .collect();
    let mut holes = vec![*can.last()?];
    if random.one_in(2) {
        holes = vec![*random.pick(&can)];
    }
    for _ in 0..random.below(4) {
        holes.push(*random.pick(&can));
    }
    Some(holes)
}

fn hole(random: &mut Random) -> u64 {
    match random.below(4) {
        0 => 1,
        1 => (random.number() >> random.within(8..=63)).max(1),
        _ => random.within(1..=10_000) as u64,
    }
}

/// How many samples to trim on the last page, so that at least `room` are left there, if that can be.
fn trim(random: &mut Random, end: End, last: &Written, room: u64) -> Option<u64> {
    let length = last.lengths.last().copied().unwrap_or(0);
    let most = last.samples().saturating_sub(room);
    match end {
        End::Unmarked => Some(0),
        End::Marked => {
            let any = random.number() % (length + 1);
            let trims = [0, 1, length.saturating_sub(1), length, length, any];
            Some(most.min(*random.pick(&trims)))
        }
        End::LongTrim if most <= length => None,
        End::LongTrim => {
            let least = length + 1;
            let any = least + random.number() % (most - length);
            Some(*random.pick(&[least, least, most, any]))
        }
    }
}

/// An initial position for a stream that goes so far beyond it.
fn any_initial(random: &mut Random, length: u64) -> u64 {
    match random.below(8) {
        0..=4 => 0,
        5..=6 => random.below(100_000) as u64,
        _ => MOST_GRANULE - length,
    }
}
