//! Whole recordings for the random runs: packets laid out on pages in any way that the rules allow,
//! and granule positions for them.

use crate::feeding::{CONTINUED, FIRST, LAST, MOST_GRANULE, NO_GRANULE};
use crate::head::Head;
use crate::head_inputs::packet;
use crate::ogg::Page;
use crate::pieces::lacing;
use crate::random::Random;
use crate::recording_inputs::{comment_packet, head_of_stream, sounds, Sound};
use crate::tags::LONGEST;

/// A page of a recording.
#[derive(Clone, Debug)]
pub struct Written {
    pub page: Page,
    /// The lengths in samples of the audio packets that complete on the page.
    pub lengths: Vec<u64>,
}

impl Written {
    pub fn samples(&self) -> u64 {
        self.lengths.iter().sum()
    }

    fn completes(&self) -> bool {
        self.page.lacing.iter().any(|&value| value < 255)
    }
}

/// A stream that a reader just started accepts.
pub struct Recording {
    pub head: Head,
    pub pages: Vec<Written>,
    /// How many of the pages are header pages.
    pub headers: usize,
}

/// A recording of any mapping family.
pub fn recording(random: &mut Random) -> Recording {
    let head = head_of_stream(random);
    let first = [Sound {
        bytes: packet(random, &head),
        samples: 0,
    }];
    let mut pages = lay(random, &first, &[255], false);
    let comments = [Sound {
        bytes: comment_packet(random),
        samples: 0,
    }];
    let few = [255, 255, random.within(1..=8)];
    pages.extend(lay(random, &comments, &few, false));
    let headers = pages.len();
    let sounds = sounds(random, head.streams as usize);
    let cuts = cuts(random);
    let mut audio = lay(random, &sounds, &cuts, true);
    if sounds
        .last()
        .is_some_and(|sound| sound.bytes.len() < LONGEST - 255)
    {
        leave_unfinished(random, &mut audio);
    }
    date(random, &mut audio, head.pre_skip);
    pages.extend(audio);
    number(random, &mut pages);
    Recording {
        head,
        pages,
        headers,
    }
}

/// The numbers of lacing values that the audio pages of a recording take.
fn cuts(random: &mut Random) -> [usize; 3] {
    let (few, some) = (random.within(1..=3), random.within(1..=12));
    match random.below(8) {
        0 => [255; 3],
        1..=2 => [1; 3],
        3..=5 => [few, few, some],
        _ => [few, some, 255],
    }
}

/// Lays packets on pages of about so many lacing values, for audio with pages of none between. The granule fields are those of header pages.
pub fn lay(random: &mut Random, sounds: &[Sound], cuts: &[usize], audio: bool) -> Vec<Written> {
    let mut values = Vec::new();
    let mut body = Vec::new();
    for sound in sounds {
        let samples = Some(sound.samples).filter(|_| audio);
        let laced = lacing(sound.bytes.len(), true);
        values.extend(laced.iter().map(|&value| (value, samples)));
        body.extend(&sound.bytes);
    }
    let least = values.len() / 14 + 1;
    let (mut rest, mut bytes) = (&values[..], &body[..]);
    let mut pages: Vec<Written> = Vec::new();
    while !rest.is_empty() {
        if audio && random.one_in(16) {
            pages.push(page_of(&pages, &[], &[]));
        }
        let cut = *random.pick(cuts);
        let count = cut.max(least).min(255).min(rest.len());
        let (on_page, after) = rest.split_at(count);
        let length = on_page.iter().map(|&(value, _)| usize::from(value)).sum();
        let (part, left) = bytes.split_at(length);
        pages.push(page_of(&pages, on_page, part));
        (rest, bytes) = (after, left);
    }
    pages
}

/// The page that follows others.
fn page_of(before: &[Written], values: &[(u8, Option<u64>)], body: &[u8]) -> Written {
    let is_open = before.last().is_some_and(|written| {
        let goes_on = |value: &u8| *value == 255;
        let is_continued = written.page.flags & CONTINUED != 0;
        written.page.lacing.last().map_or(is_continued, goes_on)
    });
    let ends = || values.iter().filter(|(value, _)| *value < 255);
    let page = Page {
        flags: if is_open { CONTINUED } else { 0 },
        granule: if ends().count() == 0 { NO_GRANULE } else { 0 },
        serial: 0,
        sequence: 0,
        lacing: values.iter().map(|&(value, _)| value).collect(),
        body: body.to_vec(),
    };
    let lengths = ends().filter_map(|&(_, samples)| samples).collect();
    Written { page, lengths }
}

/// Sometimes cuts the last packet, so that the recording ends inside it.
pub fn leave_unfinished(random: &mut Random, pages: &mut [Written]) {
    let Some(Written { page, lengths }) = pages.last_mut() else {
        return;
    };
    let ends_one = page.lacing.last().is_some_and(|&value| value < 255);
    if ends_one && random.one_in(8) {
        lengths.pop();
        let value = page.lacing.last_mut().expect("a last value");
        let more = usize::from(255 - *value);
        *value = 255;
        page.body.extend(random.bytes(more));
        if !page.lacing.iter().any(|&value| value < 255) {
            page.granule = NO_GRANULE;
        }
    }
}

/// Gives granule positions to the pages where a packet completes, and mostly a mark to the last.
pub fn date(random: &mut Random, pages: &mut [Written], pre_skip: u64) {
    let mut position = 0;
    for written in pages.iter_mut().filter(|written| written.completes()) {
        position += written.samples();
        if position > written.samples() && random.one_in(8) {
            position += hole(random);
        }
        written.page.granule = position;
    }
    let initial = initial(random, MOST_GRANULE - position);
    for written in pages.iter_mut().filter(|written| written.completes()) {
        written.page.granule += initial;
    }
    if !random.one_in(4) {
        mark_last(random, pages, pre_skip);
    }
}

fn hole(random: &mut Random) -> u64 {
    match random.below(4) {
        0 => 1,
        1 => random.number() >> random.within(4..=63),
        _ => random.below(10_000) as u64,
    }
}

/// An initial position of at most so much.
fn initial(random: &mut Random, most: u64) -> u64 {
    match random.below(8) {
        0..=3 => 0,
        4 => random.below(100_000) as u64,
        5 => most,
        6 => most - random.below(3_000) as u64,
        _ => random.number() % most,
    }
}

/// Marks the last page, and gives it a granule position that cuts samples, or leaves a hole.
fn mark_last(random: &mut Random, pages: &mut [Written], pre_skip: u64) {
    let Some((last, before)) = pages.split_last_mut() else {
        return;
    };
    last.page.flags |= LAST;
    if !last.completes() {
        return;
    }
    let position = before.iter().rfind(|written| written.completes());
    let least = position.map_or(pre_skip, |written| written.page.granule);
    let full = last.page.granule.max(least);
    last.page.granule = match random.below(8) {
        0..=1 => full,
        2 => least,
        3 if full < MOST_GRANULE => full + 1 + random.number() % (MOST_GRANULE - full),
        4 => full.saturating_sub(1).max(least),
        _ => least + random.number() % (full - least + 1),
    };
}

/// Gives the pages one serial, their sequence numbers and the first mark.
pub fn number(random: &mut Random, pages: &mut [Written]) {
    let serial = random.field() as u32;
    for (written, sequence) in pages.iter_mut().zip(0..) {
        written.page.serial = serial;
        written.page.sequence = sequence;
    }
    pages[0].page.flags |= FIRST;
}
