//! Holds starting, opening part way and feeding to an independent reader, on random recordings with
//! wrong pages between their own.

use embulgri_tests::feed_calls::{Feeder, Room};
use embulgri_tests::feed_choice::{fault, room, WAYS};
use embulgri_tests::feed_faults::Case;
use embulgri_tests::feeding::{HEADER_SHAPE, REFUSALS, WRONG_GRANULE};
use embulgri_tests::inputs::Change;
use embulgri_tests::ogg;
use embulgri_tests::random::{times, Random};
use embulgri_tests::reader::{Phase, Position, Reader, Unfinished};
use embulgri_tests::recording::{recording, Recording, Written};
use embulgri_tests::tags::LONGEST;
use embulgri_tests::tally::{Aims, Frames, Moves, Tally};

const RECORDINGS: usize = 32_000;
const LEAST_FEEDINGS: usize = 200_000;
const LEAST_MOVED: usize = 1_000;
const LEAST_OF_EACH_COUNT: usize = 100;

/// A run of feedings to one reader after the other, on one memory.
struct Run {
    random: Random,
    feeder: Feeder,
    tally: Tally,
    aims: Aims,
    moves: Moves,
    frames: Frames,
    recording: usize,
}

impl Run {
    fn new(test: u64) -> Run {
        Run {
            random: Random::of_run(test),
            feeder: Feeder::started(),
            tally: Tally::default(),
            aims: Aims::default(),
            moves: Moves::default(),
            frames: Frames::default(),
            recording: 0,
        }
    }

    /// Feeds the pages of a recording with wrong ones between, until one of its own is refused.
    fn feed_all(&mut self, pages: &[Written]) {
        for written in pages {
            self.meddle();
            let accepted = self.feed_wrong_ones(written) || self.feed_one(&written.page);
            if !accepted {
                break;
            }
        }
        if self.feeder.reader().phase == Phase::Ended {
            let again = pages.last().expect("a page that ended it");
            for _ in 0..self.random.below(3) {
                self.feed_wrong_ones(again);
            }
        }
    }

    /// Feeds wrong ones in place of a page, until one is accepted all the same.
    fn feed_wrong_ones(&mut self, written: &Written) -> bool {
        let reader = self.feeder.reader();
        let count = match (reader.phase, reader.position) {
            (Phase::First, _) => self.random.below(4),
            (Phase::Comment, _) => self.random.below(5),
            (_, Position::At(_)) => self.random.below(2),
            _ => self.random.below(5),
        };
        (0..count).any(|_| self.feed_wrong(written, reader.clone()))
    }

    fn feed_wrong(&mut self, written: &Written, reader: Reader) -> bool {
        let fault = fault(&mut self.random, reader, written);
        let answer = self.feed(&fault.bytes, fault.room, &fault.name);
        if let Some(way) = fault.way {
            self.aims.add(way, answer);
        }
        answer == 0
    }

    fn feed_one(&mut self, page: &ogg::Page) -> bool {
        let room = room(&mut self.random);
        self.feed(&ogg::encode(page), room, "its own page") == 0
    }

    /// Feeds a page and gives the answer.
    fn feed(&mut self, bytes: &[u8], room: Room, name: &str) -> u32 {
        let before = self.feeder.totals();
        let name = format!("recording {}: {name}", self.recording);
        let told = self.feeder.feed(bytes, room, name);
        for entry in told.iter().flat_map(|listing| &listing.entries) {
            self.frames.add(entry.frames);
        }
        let answer = told.err().unwrap_or(0);
        self.tally.add(answer);
        self.moves.add(before, self.feeder.totals());
        answer
    }

    /// Changes bytes of the carry buffer: often after the held ones, seldom among them.
    fn meddle(&mut self) {
        let held = match self.feeder.reader().unfinished {
            Unfinished::Held(held) => held as usize,
            _ => 0,
        };
        let count = self.random.within(1..=64);
        let bytes = self.random.bytes(count);
        if self.random.one_in(4) && held + count < LONGEST {
            let place = self.random.within(held..=LONGEST - count);
            self.feeder.put_in_carry(place, &bytes);
        }
        if held > 0 && self.random.one_in(16) {
            let place = self.random.below(held);
            self.feeder.put_in_carry(place, &bytes[..1]);
        }
    }

    /// Starts a reader, or opens one at an audio page, whose sequence number is then any.
    fn begin(&mut self, recording: &mut Recording) -> usize {
        if recording.headers == recording.pages.len() || !self.random.one_in(3) {
            self.feeder.start();
            return 0;
        }
        let answer = self.feeder.open(&recording.head, self.recording);
        assert_eq!(answer, 0, "recording {}", self.recording);
        let shift = match self.random.below(4) {
            0 => 0,
            1 => u32::MAX - self.random.below(8) as u32,
            _ => self.random.number() as u32,
        };
        for written in &mut recording.pages {
            written.page.sequence = written.page.sequence.wrapping_add(shift);
        }
        self.random
            .within(recording.headers..=recording.pages.len() - 1)
    }
}

/// The occasions of 10 and 11 are many, and each must come often.
fn least(way: &Change<Case>) -> usize {
    match way.answers {
        [HEADER_SHAPE] | [WRONG_GRANULE] => 1_000,
        _ => 100,
    }
}

#[test]
fn feeding_gives_the_number_the_reader_and_the_lists_that_the_rules_say() {
    let mut run = Run::new(91);
    for number in 0..RECORDINGS * times() {
        run.recording = number;
        let mut recording = recording(&mut run.random);
        let first = run.begin(&mut recording);
        run.feed_all(&recording.pages[first..]);
    }
    run.tally.finish("pages fed", LEAST_FEEDINGS, &REFUSALS);
    run.moves.finish("totals of the readers", [LEAST_MOVED, 0]);
    run.frames
        .finish("packets listed, by frames", 1, LEAST_OF_EACH_COUNT);
    for ways in WAYS {
        run.aims.finish(ways, least);
    }
}
