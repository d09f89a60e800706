//! A crop held to the whole stream by what readers of the library tell of both, and of further pages,
//! right and wrong ones in turn.

use crate::crop::{shifted, Whole};
use crate::crop_inputs::Stream;
use crate::crop_readers::{Listed, Lister};
use crate::feed_audio::{GRANULES, MIXED, PACKETS, SMALL};
use crate::feed_calls::ENOUGH;
use crate::feed_faults::{Case, FIELDS, LONG, LONG_HELD, SERIALS};
use crate::feeding::{CONTINUED, LAST, MOST_GRANULE, NO_GRANULE};
use crate::ffi;
use crate::inputs::Change;
use crate::ogg::{self, Page};
use crate::pieces::put_pieces;
use crate::random::Random;
use crate::reader::{Phase, Position, Reader, Unfinished};
use crate::recording::Written;
use crate::recording_inputs::{of_length, tiny};
use std::fmt::Display;

/// How many pages are fed in turn.
const FURTHER: usize = 12;
/// The bytes of a packet that is made to go on: of what is on its first page, and at least after it.
const BEGUN: usize = 255;
const REST: usize = 45;
/// The samples of the longest packet.
const MOST_SAMPLES: u64 = 5_760;

/// A whole stream, what the library lists of it, and a page at which a crop of it begins.
pub struct Read<'a> {
    pub whole: &'a Whole,
    pub listed: &'a Listed,
    pub page: u64,
}

impl Read<'_> {
    /// Holds the crop to the whole stream: it is whole itself, its packets are listed as they were, and
    /// further pages, of which a stream that has ended seldom gets any, have the same answers. Gives
    /// these.
    pub fn check(&self, random: &mut Random, crop: &[u8], stream: &Stream) -> Vec<u32> {
        let case = format!("page {}, {}", self.page, stream.name);
        assert_eq!(ffi::judge(crop, &mut 0), 0, "{case}");
        let cropped = Listed::of(crop);
        let kept = &self.listed.pages[self.page as usize..];
        assert_eq!(&cropped.pages[self.whole.headers..], kept, "{case}");
        if self.listed.reader.reader().phase == Phase::Ended && !random.one_in(8) {
            return Vec::new();
        }
        let readers = [self.listed.reader.clone(), cropped.reader];
        let shift = self.whole.shift(self.page);
        check_further(random, readers, shift, &stream.later, case)
    }
}

/// Feeds further pages to both readers, the numbers of those for the crop being lower by `shift`. Gives
/// the answers, which must be the same.
fn check_further(
    random: &mut Random,
    mut readers: [Lister; 2],
    shift: u32,
    later: &[Written],
    case: impl Display,
) -> Vec<u32> {
    let mut answers = Vec::new();
    for turn in 0..FURTHER {
        let page = further(random, readers[0].reader(), later);
        let [whole, crop] = &mut readers;
        let told = whole.feed(&ogg::encode(&page));
        let found = crop.feed(&shifted(&page, shift));
        assert_eq!(found, told, "further page {turn}, {case}");
        answers.push(told.err().unwrap_or(0));
    }
    answers
}

/// A page for a reader: the one that it expects of the recording, a made one that it expects, or either
/// made wrong, but still one page.
fn further(random: &mut Random, reader: Reader, later: &[Written]) -> Page {
    let due = later.iter().find(|w| w.page.sequence == reader.next);
    let mut written = match due.filter(|_| !random.one_in(8)) {
        Some(written) => written.clone(),
        None => made(random, &reader),
    };
    if !random.one_in(4) {
        written.page.flags &= !LAST;
    }
    let mut case = Case {
        samples: written.samples(),
        page: written.page,
        room: ENOUGH,
        reader,
    };
    let right = case.page.clone();
    if random.one_in(3) {
        let ways = ways(random, &case);
        (random.pick(ways).apply)(random, &mut case);
    }
    match case.page.lacing.len() {
        0..=255 => case.page,
        _ => right,
    }
}

/// Ways to make a page wrong. Those that need many bytes are seldom taken.
fn ways(random: &mut Random, case: &Case) -> &'static [Change<Case>] {
    let is_held = matches!(case.reader.unfinished, Unfinished::Held(_));
    match random.below(48) {
        0 if is_held => LONG_HELD,
        0 => LONG,
        1..=16 => FIELDS,
        17..=23 => SERIALS,
        24..=31 => GRANULES,
        32..=36 => PACKETS,
        37..=40 if case.reader.streams > 1 => MIXED,
        _ => SMALL,
    }
}

/// A page that the reader expects, with packets that end on it, one that goes on, or none.
fn made(random: &mut Random, reader: &Reader) -> Written {
    let streams = usize::from(reader.streams.max(1));
    let is_held = reader.unfinished != Unfinished::Nothing;
    let (mut pieces, mut lengths) = (Vec::new(), Vec::new());
    if is_held {
        let more = random.within(REST..=200);
        let piece = match random.one_in(4) {
            true => (random.bytes(255), false),
            false => (random.bytes(more), true),
        };
        lengths.extend(piece.1.then_some(MOST_SAMPLES));
        pieces.push(piece);
    }
    if pieces.iter().all(|(_, ends)| *ends) {
        for _ in 0..random.below(4) {
            let sound = tiny(random, streams);
            lengths.push(sound.samples);
            pieces.push((sound.bytes, true));
        }
        if random.one_in(4) {
            let mut sound = of_length(random, streams, BEGUN + REST);
            sound.bytes.truncate(BEGUN);
            pieces.push((sound.bytes, false));
        }
    }
    let mut page = Page {
        flags: if is_held { CONTINUED } else { 0 },
        granule: NO_GRANULE,
        serial: reader.serial,
        sequence: reader.next,
        lacing: Vec::new(),
        body: Vec::new(),
    };
    put_pieces(&mut page, &pieces);
    let mut written = Written { page, lengths };
    put_granule(random, reader, &mut written);
    written
}

/// Gives a made page its granule position, and sometimes a mark that it is the last.
fn put_granule(random: &mut Random, reader: &Reader, written: &mut Written) {
    let samples = written.samples();
    let before = match reader.position {
        Position::At(position) => position,
        Position::Unset | Position::Joined => 0,
    };
    let is_last = random.one_in(8);
    if is_last {
        written.page.flags |= LAST;
    }
    if written.lengths.is_empty() {
        return;
    }
    let more = match random.below(4) {
        0 if is_last => 0,
        1 if is_last => random.number() % samples,
        2 => samples + random.below(2_000) as u64,
        _ => samples,
    };
    written.page.granule = before.saturating_add(more).min(MOST_GRANULE);
}
