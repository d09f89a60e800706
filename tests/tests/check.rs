//! Holds checking to the rules in docs/RULES.md: random streams, whole and not, with every set of findings
//! that can be, into lists of all lengths; streams cut at every byte; and streams with every byte changed.

use embulgri_tests::buffer_pages::page_end;
use embulgri_tests::check::{check, findings, Finding};
use embulgri_tests::check_calls::check_findings;
use embulgri_tests::check_classes::{
    at_least, exactly, few_kinds, kind_classes, kind_sets, name_classes, named, names, shapes,
    SHAPES,
};
use embulgri_tests::check_comments::{ELSEWHERE, NEAR};
use embulgri_tests::check_inputs::{any_rooms, input, rooms, whole_input, Input, ROOMS};
use embulgri_tests::crop::Whole;
use embulgri_tests::feeding::REFUSALS;
use embulgri_tests::judging::HEADERS_INCOMPLETE;
use embulgri_tests::ogg::{self, NO_ROOM};
use embulgri_tests::random::{times, Random};
use embulgri_tests::tally::{say, Classes, Tally};

const STREAMS: usize = 40_000;
const LEAST_CALLS: usize = 100_000;
const LEAST_WITHOUT_FINDINGS: usize = 1_000;
const LEAST_OF_A_KIND: usize = 1_000;
const LEAST_OF_EACH: usize = 200;
const LEAST_OF_A_PAIR: usize = 50;
const SMALL_STREAMS: usize = 300;
const CUT_STREAMS: usize = 60;
const CHANGED_STREAMS: usize = 40;
const LONGEST_SMALL: usize = 600;

/// A stream is never refused for lack of room to feed, nor for what an opened reader lacks.
const NEVER: [u32; 2] = [1, 19];

/// The numbers that a check can return but 0.
fn refusals() -> Vec<u32> {
    let of_pages = REFUSALS.into_iter().filter(|n| !NEVER.contains(n));
    of_pages.chain([HEADERS_INCOMPLETE, NO_ROOM]).collect()
}

/// The counts of a run.
#[derive(Default)]
struct Counts {
    calls: Tally,
    rooms: Classes,
    kinds: Classes,
    shapes: Classes,
    /// Of streams without a tag, by what their comments have that is nearly one.
    near: Classes,
    whole: usize,
}

impl Counts {
    /// Checks a stream with lists of the lengths around what is told of it.
    fn call(&mut self, random: &mut Random, input: &Input, told: &Result<Vec<Finding>, u32>) {
        let Input { bytes, name, .. } = input;
        let Ok(findings) = told else {
            for lent in any_rooms(random) {
                self.calls.add(check_findings(bytes, told, lent, name));
            }
            return;
        };
        for (lent, room) in rooms(random, findings.len()) {
            self.calls.add(check_findings(bytes, told, lent, name));
            self.rooms.add(room.to_string());
        }
    }

    /// Counts what a whole stream is like.
    fn count(&mut self, input: &Input, whole: &Whole, findings: &[Finding]) {
        self.whole += 1;
        for class in kind_classes(findings) {
            self.kinds.add(class);
        }
        for shape in shapes(whole, findings) {
            self.shapes.add(shape.to_string());
        }
        match names(whole)[..] {
            [] => {
                for way in &input.ways {
                    self.near.add(way.to_string());
                }
            }
            [name] => self.shapes.add(named(name)),
            _ => (),
        }
    }

    fn finish(&self) {
        say(&format!("whole streams: {}", self.whole));
        let name = "streams checked";
        self.calls
            .finish_by(name, LEAST_CALLS, &refusals(), LEAST_OF_EACH);
        self.rooms.finish(&ROOMS.map(str::to_string), LEAST_OF_EACH);
        for set in few_kinds() {
            let least = [LEAST_OF_A_KIND, LEAST_OF_A_PAIR][set.len() - 1];
            self.kinds.finish(&[at_least(&set)], least);
        }
        for set in kind_sets() {
            let is_empty = set.is_empty();
            let least = if is_empty {
                LEAST_WITHOUT_FINDINGS
            } else {
                LEAST_OF_EACH
            };
            self.kinds.finish(&[exactly(&set)], least);
        }
        self.shapes
            .finish(&SHAPES.map(str::to_string), LEAST_OF_EACH);
        self.shapes.finish(&name_classes(), LEAST_OF_EACH);
        let near = NEAR.iter().map(|way| way.name);
        let near = near.chain(ELSEWHERE.iter().map(|way| way.name));
        let near: Vec<String> = near.map(str::to_string).collect();
        self.near.finish(&near, LEAST_OF_EACH);
    }
}

#[test]
fn any_stream_is_checked_by_the_rules() {
    let mut random = Random::of_run(191);
    let mut counts = Counts::default();
    for number in 0..STREAMS * times() {
        let mut input = input(&mut random);
        input.name += &format!(", stream {number}");
        let whole = Whole::of(&input.bytes);
        let told = whole.as_ref().map(findings).map_err(|&number| number);
        counts.call(&mut random, &input, &told);
        if let (Ok(whole), Ok(findings)) = (&whole, &told) {
            counts.count(&input, whole, findings);
        }
    }
    counts.finish();
}

/// A whole stream of few bytes.
fn small(random: &mut Random) -> Input {
    loop {
        let input = whole_input(random);
        if input.bytes.len() <= LONGEST_SMALL {
            return input;
        }
    }
}

#[test]
fn lists_of_all_lengths_around_the_findings_are_lent() {
    let mut random = Random::of_run(192);
    let mut tally = Tally::default();
    for _ in 0..SMALL_STREAMS {
        let Input { bytes, name, .. } = small(&mut random);
        let told = check(&bytes);
        let most = told.as_ref().expect("a whole stream").len() + 2;
        for kinds in 0..=most {
            for pages in 0..=most {
                tally.add(check_findings(&bytes, &told, [kinds, pages], &name));
            }
        }
    }
    tally.finish_by("lists of all lengths", 3_000, &[NO_ROOM], LEAST_OF_EACH);
}

#[test]
fn a_stream_cut_at_every_byte_is_checked_by_the_rules() {
    let mut random = Random::of_run(193);
    let mut tally = Tally::default();
    for _ in 0..CUT_STREAMS {
        let Input { bytes, name, .. } = small(&mut random);
        for cut in 0..=bytes.len() {
            let part = &bytes[..cut];
            let case = format!("cut at {cut}, {name}");
            tally.add(check_findings(part, &check(part), [9, 10], case));
        }
    }
    tally.print("streams cut at every byte");
    tally.has_all(&[0, 3, HEADERS_INCOMPLETE]);
}

/// Makes the checksum right of the page that has a byte.
fn seal_at(bytes: &mut [u8], place: usize) {
    let mut start = 0;
    while start < bytes.len() {
        let end = page_end(bytes, start as u64).unwrap_or(bytes.len());
        if (start..end).contains(&place) && end - start >= ogg::HEAD {
            ogg::seal(&mut bytes[start..end]);
        }
        start = end;
    }
}

#[test]
fn a_stream_with_every_byte_changed_is_checked_by_the_rules() {
    let mut random = Random::of_run(194);
    let mut tally = Tally::default();
    for _ in 0..CHANGED_STREAMS {
        let Input { bytes, name, .. } = small(&mut random);
        for place in 0..bytes.len() {
            let mut changed = bytes.clone();
            changed[place] = match random.one_in(2) {
                true => bytes[place] ^ 1 << random.below(8),
                false => random.byte(),
            };
            seal_at(&mut changed, place);
            let case = format!("byte {place} changed, {name}");
            tally.add(check_findings(&changed, &check(&changed), [10, 9], case));
        }
    }
    tally.print("streams with every byte changed");
    tally.has_all(&[0, 3, 5, 6, 7, 8, 10, 11, 12, 13, 14, 15, 17]);
}
