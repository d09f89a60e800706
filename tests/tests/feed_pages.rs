//! Holds feeding the pages of a buffer in one call to feeding them one by one by the rules: on random
//! recordings with wrong pages among their own, on readers of changed numbers, and on buffers that are
//! cut at every byte.

use embulgri_tests::buffer_inputs::{buffer, expected, room, short_recording, Buffer, Expected};
use embulgri_tests::buffer_pages::{Fed, Stop};
use embulgri_tests::changed_numbers::{changed, fit};
use embulgri_tests::feed_calls::{Feeder, Room, ENOUGH, MOST_OF_PAGES};
use embulgri_tests::feeding::{LISTS, REFUSALS};
use embulgri_tests::random::{times, Random};
use embulgri_tests::reader::{Phase, Reader};
use embulgri_tests::recording::{Recording, Written};
use embulgri_tests::tally::{say, Classes, Spread, Tally};

const RECORDINGS: usize = 21_000;
const LEAST_CALLS: usize = 100_000;
const CHANGED_RECORDINGS: usize = 4_000;
const LEAST_CHANGED: usize = 20_000;
const LEAST_OF_EACH: usize = 200;
const LEAST_OF_EACH_CHANGED: usize = 20;
const LEAST_OF_EACH_WHY: usize = 1_000;
const CUT_RECORDINGS: usize = 8;
const LONGEST_CUT: usize = 2_000;
const READ_RECORDINGS: usize = 1_000;

/// Lists that no recording of these tests fills.
const WIDE: Room = Room {
    lists: [MOST_OF_PAGES; LISTS],
    ..ENOUGH
};

/// What calls come to, by what was accepted before they stopped.
const CLASSES: [&str; 7] = [
    "pages accepted and one refused",
    "pages accepted and one cut",
    "pages accepted and no room for one more",
    "no page accepted and one refused",
    "no page accepted and one cut",
    "no page accepted and no room for one",
    "several pages accepted",
];

/// Counts of calls that feed the pages of a buffer.
#[derive(Default)]
struct Calls {
    answers: Tally,
    whys: Spread<3>,
    classes: Classes,
    accepting: usize,
    calls: usize,
}

impl Calls {
    fn add(&mut self, fed: &Fed) {
        let first = if fed.pages() > 0 { 0 } else { 3 };
        let why = match fed.stop {
            Stop::Refused(_) => 0,
            Stop::Cut => 1,
            Stop::Full => 2,
        };
        self.classes.add(CLASSES[first + why].to_string());
        if fed.pages() > 1 {
            self.classes.add(CLASSES[6].to_string());
        }
        self.accepting += usize::from(fed.pages() > 0);
        self.calls += 1;
        self.whys.add(fed.numbers()[3]);
        self.answers.add(fed.answer());
    }

    /// Prints the counts. Fails unless there were enough calls, and each refusal, each why and each
    /// class came often enough.
    fn finish(&self, run: &str, least_calls: usize, least: usize) {
        let Calls {
            accepting, calls, ..
        } = self;
        say(&format!("{run}: {accepting} of {calls} accept a page"));
        self.answers.finish_by(run, least_calls, &REFUSALS, least);
        self.whys.finish("why they stopped", 0, LEAST_OF_EACH_WHY);
        self.classes
            .finish(&CLASSES.map(str::to_string), LEAST_OF_EACH_WHY);
    }
}

/// A run of calls to one reader after the other, on one memory.
struct Run {
    random: Random,
    feeder: Feeder,
    calls: Calls,
    recording: usize,
}

impl Run {
    fn new(test: u64) -> Run {
        Run {
            random: Random::of_run(test),
            feeder: Feeder::started(),
            calls: Calls::default(),
            recording: 0,
        }
    }

    /// Starts a reader, or opens one at an audio page.
    fn begin(&mut self, recording: &Recording) -> usize {
        if recording.headers == recording.pages.len() || !self.random.one_in(3) {
            self.feeder.start();
            return 0;
        }
        let answer = self.feeder.open(&recording.head, self.recording);
        assert_eq!(answer, 0, "recording {}", self.recording);
        self.random
            .within(recording.headers..=recording.pages.len() - 1)
    }

    /// Feeds the pages of a recording in buffers of several, until three in turn come to nothing.
    fn feed_all(&mut self, mut pages: &[Expected]) {
        let mut stuck = 0;
        while !pages.is_empty() && stuck < 3 {
            let count = match self.random.below(8) {
                0 => pages.len(),
                1..=3 => 1,
                _ => self.random.within(1..=4),
            };
            let buffer = buffer(&mut self.random, &pages[..count.min(pages.len())]);
            let accepted = self.feed(&buffer).pages().min(pages.len());
            pages = &pages[accepted..];
            stuck = if accepted == 0 { stuck + 1 } else { 0 };
        }
    }

    fn feed(&mut self, buffer: &Buffer) -> Fed {
        let case = format!("recording {}: {}", self.recording, buffer.name);
        let fed = self.feeder.feed_pages(&buffer.bytes, buffer.room, case);
        self.calls.add(&fed);
        fed
    }
}

#[test]
fn the_pages_of_a_buffer_are_fed_as_one_by_one() {
    let mut run = Run::new(111);
    for number in 0..RECORDINGS * times() {
        run.recording = number;
        let recording = short_recording(&mut run.random);
        let first = run.begin(&recording);
        let pages = expected(run.feeder.reader(), &recording.pages[first..]);
        run.feed_all(&pages);
        if run.feeder.reader().phase == Phase::Ended {
            let again = buffer(&mut run.random, &pages[pages.len() - 1..]);
            run.feed(&again);
        }
    }
    let name = "buffers of pages fed";
    run.calls.finish(name, LEAST_CALLS, LEAST_OF_EACH);
    let Calls {
        accepting, calls, ..
    } = run.calls;
    assert!(3 * accepting >= calls, "too few accept a page: {accepting}");
}

/// Pages that follow each other for a reader of changed numbers: the first is mostly as it expects.
fn fitted(random: &mut Random, reader: &Reader, pages: &[Written]) -> Vec<Written> {
    let mut pages = pages.to_vec();
    let (serial, first) = (pages[0].page.serial, pages[0].page.sequence);
    if random.one_in(8) {
        return pages;
    }
    fit(&mut pages[0].page, reader);
    let new = pages[0].page.clone();
    for Written { page, .. } in &mut pages[1..] {
        page.serial = page.serial.wrapping_sub(serial).wrapping_add(new.serial);
        let apart = page.sequence.wrapping_sub(first);
        page.sequence = new.sequence.wrapping_add(apart);
    }
    pages
}

#[test]
fn any_numbers_are_fed_the_pages_of_a_buffer() {
    let mut run = Run::new(112);
    for number in 0..CHANGED_RECORDINGS * times() {
        run.recording = number;
        let pages = short_recording(&mut run.random).pages;
        for (place, page) in expected(Reader::started(), &pages).iter().enumerate() {
            let (numbers, name) = changed(&mut run.random, page.reader.numbers());
            let reader = Reader::from_numbers(&numbers);
            let count = run.random.within(1..=3).min(pages.len() - place);
            let fitted = fitted(&mut run.random, &reader, &pages[place..][..count]);
            let mut buffer = buffer(&mut run.random, &expected(reader, &fitted));
            buffer.name += &format!(", {name}, {numbers:?}");
            run.feeder.set(numbers);
            let fed = run.feed(&buffer);
            if fed.pages() == 0 {
                assert_eq!(run.feeder.numbers(), numbers, "{}", buffer.name);
            }
        }
    }
    let name = "buffers of pages fed to any sixteen numbers";
    run.calls.finish(name, LEAST_CHANGED, LEAST_OF_EACH_CHANGED);
}

/// The bytes of a recording's pages.
fn bytes_of(pages: &[Expected]) -> Vec<u8> {
    pages.iter().flat_map(|page| page.bytes.clone()).collect()
}

#[test]
fn a_buffer_cut_at_every_byte_is_fed_up_to_its_last_whole_page() {
    let mut random = Random::of_run(113);
    let mut feeder = Feeder::started();
    let mut left = CUT_RECORDINGS;
    while left > 0 {
        let pages = expected(Reader::started(), &short_recording(&mut random).pages);
        let bytes = bytes_of(&pages);
        if pages.len() < 5 || bytes.len() > LONGEST_CUT {
            continue;
        }
        left -= 1;
        feeder.start();
        let all = feeder.feed_pages(&bytes, WIDE, "not cut");
        assert_eq!((all.pages(), all.stop), (pages.len(), Stop::Cut));
        let numbers = feeder.numbers();
        for cut in 0..=bytes.len() {
            let case = format!("recording {left}, cut at {cut}");
            feeder.start();
            let fed = feeder.feed_pages(&bytes[..cut], WIDE, &case);
            let whole = all.ends.iter().copied().filter(|&end| end <= cut);
            assert_eq!(fed.ends, whole.collect::<Vec<_>>(), "{case}");
            assert_eq!(fed.stop, Stop::Cut, "{case}");
            let rest = feeder.feed_pages(&bytes[fed.taken()..], WIDE, &case);
            assert_eq!(fed.taken() + rest.taken(), bytes.len(), "{case}");
            assert_eq!(fed.packets + rest.packets, all.packets, "{case}");
            assert_eq!(feeder.numbers(), numbers, "{case}");
        }
    }
}

/// Appends what so many first places of the lists hold.
fn append(lists: &mut [Vec<u64>; LISTS], feeder: &Feeder, count: usize) {
    for (list, part) in lists.iter_mut().zip(feeder.listed(count)) {
        list.extend(part);
    }
}

#[test]
fn a_recording_read_in_parts_is_listed_as_page_by_page() {
    let mut random = Random::of_run(114);
    let (mut by_parts, mut by_pages) = (Feeder::started(), Feeder::started());
    for number in 0..READ_RECORDINGS {
        let pages = expected(Reader::started(), &short_recording(&mut random).pages);
        let mut lists = [const { Vec::new() }; LISTS];
        by_pages.start();
        for page in &pages {
            let told = by_pages.feed(&page.bytes, ENOUGH, number);
            let count = told.expect("a page that is accepted").entries.len();
            append(&mut lists, &by_pages, count);
        }
        let bytes = bytes_of(&pages);
        let most = *random.pick(&[8, 100, 4_096, bytes.len()]);
        let (mut start, mut end) = (0, 0);
        let mut found = [const { Vec::new() }; LISTS];
        by_parts.start();
        while start < bytes.len() {
            end = (end + random.within(1..=most)).min(bytes.len());
            let mut stop = Stop::Full;
            while stop == Stop::Full {
                let fed = by_parts.feed_pages(&bytes[start..end], room(&mut random), number);
                append(&mut found, &by_parts, fed.packets);
                start += fed.taken();
                stop = fed.stop;
            }
        }
        assert_eq!(found, lists, "recording {number}");
        assert_eq!(by_parts.numbers(), by_pages.numbers(), "recording {number}");
    }
}
