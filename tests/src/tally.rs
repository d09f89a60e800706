//! Counts of the answers in a run. A run that hardly ever reaches an answer shows little of it, so
//! the counts are printed and held to a minimum.

use crate::inputs::Change;
use crate::opus::MOST_FRAMES;
use crate::reader::Totals;
use std::collections::BTreeMap;
use std::io::{self, Write};

const LEAST_OF_EACH_REFUSAL: usize = 1_000;

#[derive(Default)]
pub struct Tally {
    counts: BTreeMap<u32, usize>,
}

impl Tally {
    pub fn add(&mut self, answer: u32) {
        *self.counts.entry(answer).or_default() += 1;
    }

    /// Prints the counts.
    pub fn print(&self, run: &str) {
        say(&format!(
            "{run}: {} inputs, {}",
            self.total(),
            self.listing()
        ));
    }

    /// Prints the counts. Fails unless there were enough inputs, a third of them were accepted,
    /// each of the refusals came often enough, and no other number came.
    pub fn finish(&self, run: &str, least_inputs: usize, refusals: &[u32]) {
        self.finish_by(run, least_inputs, refusals, LEAST_OF_EACH_REFUSAL);
    }

    /// The same with another least count of each refusal.
    pub fn finish_by(&self, run: &str, least_inputs: usize, refusals: &[u32], least: usize) {
        self.print(run);
        let total = self.total();
        assert!(total >= least_inputs, "{run}: too few inputs");
        assert!(3 * self.of(0) >= total, "{run}: too few accepted");
        for &number in refusals {
            assert!(
                self.of(number) >= least,
                "{run}: too few refused by {number}"
            );
        }
        let known = self.of(0)
            + refusals
                .iter()
                .map(|&number| self.of(number))
                .sum::<usize>();
        assert_eq!(known, total, "{run}: an answer that cannot occur");
    }

    /// Fails unless each of the answers came.
    pub fn has_all(&self, answers: &[u32]) {
        for &answer in answers {
            assert!(self.of(answer) > 0, "none answered by {answer}");
        }
    }

    fn total(&self) -> usize {
        self.counts.values().sum()
    }

    fn of(&self, answer: u32) -> usize {
        self.counts.get(&answer).copied().unwrap_or(0)
    }

    fn listing(&self) -> String {
        let parts: Vec<String> = self
            .counts
            .iter()
            .map(|(answer, count)| match answer {
                0 => format!("accepted {count}"),
                number => format!("refused by {number}: {count}"),
            })
            .collect();
        parts.join(", ")
    }
}

/// Counts of how often each way to make an input wrong, by its name, had the answer aimed at.
#[derive(Default)]
pub struct Aims {
    counts: BTreeMap<&'static str, usize>,
}

impl Aims {
    pub fn add<T>(&mut self, way: &Change<T>, answer: u32) {
        let hit = way.answers.contains(&answer);
        *self.counts.entry(way.name).or_default() += usize::from(hit);
    }

    /// Prints the counts of these ways. Fails if one is below the least that is asked of it.
    pub fn finish<T>(&self, ways: &[Change<T>], least: fn(&Change<T>) -> usize) {
        for way in ways {
            let count = self.counts.get(way.name).copied().unwrap_or(0);
            let name = format!("{:?} by {}", way.answers, way.name);
            hold(&name, count, least(way));
        }
    }
}

/// Counts of how often each of a reader's totals, of kept, skipped and trimmed samples and of holes,
/// moved, and how often it passed 2^64 then.
#[derive(Default)]
pub struct Moves([[usize; 4]; 2]);

impl Moves {
    pub fn add(&mut self, before: Totals, after: Totals) {
        let [moved, wrapped] = &mut self.0;
        for place in 0..before.len() {
            moved[place] += usize::from(after[place] != before[place]);
            wrapped[place] += usize::from(after[place] < before[place]);
        }
    }

    /// Prints the counts. Fails if a total moved, or wrapped, less often than is asked.
    pub fn finish(&self, run: &str, least: [usize; 2]) {
        let [moved, wrapped] = self.0;
        say(&format!(
            "{run}, kept, skipped, trimmed and hole: moved {moved:?}, wrapped {wrapped:?}"
        ));
        for (counts, least) in self.0.iter().zip(least) {
            let is_enough = |&count: &usize| count >= least;
            assert!(counts.iter().all(is_enough), "{run}: too few");
        }
    }
}

/// Counts of a number that every input has, from 0 to `N - 1`.
pub struct Spread<const N: usize>([usize; N]);

/// Counts of the versions of identification headers.
pub type Versions = Spread<16>;
/// Counts of the numbers of frames of packets.
pub type Frames = Spread<{ MOST_FRAMES + 1 }>;

impl<const N: usize> Default for Spread<N> {
    fn default() -> Spread<N> {
        Spread([0; N])
    }
}

impl<const N: usize> Spread<N> {
    pub fn add(&mut self, number: u64) {
        self.0[number as usize] += 1;
    }

    /// Prints the counts. Fails unless each number from `first` on came often enough.
    pub fn finish(&self, run: &str, first: usize, least: usize) {
        let (counts, total) = (&self.0[first..], self.0.iter().sum::<usize>());
        let last = N - 1;
        say(&format!("{run}: {total}, of {first} to {last}: {counts:?}"));
        let is_enough = |&count: &usize| count >= least;
        assert!(counts.iter().all(is_enough), "{run}: too few of a number");
    }
}

/// Counts of the inputs of each class, by its name. An input can be of several.
#[derive(Default)]
pub struct Classes {
    counts: BTreeMap<String, usize>,
}

impl Classes {
    pub fn add(&mut self, class: String) {
        *self.counts.entry(class).or_default() += 1;
    }

    /// Prints the counts of these classes. Fails if one is below the least that is asked.
    pub fn finish(&self, classes: &[String], least: usize) {
        for class in classes {
            let count = self.counts.get(class).copied().unwrap_or(0);
            hold(class, count, least);
        }
    }
}

/// Prints a count. Fails if it is below the least that is asked.
fn hold(name: &str, count: usize, least: usize) {
    say(&format!("  {name}: {count}"));
    assert!(count >= least, "{name}: too few");
}

/// Prints a line that shows in a passing run too: the test harness holds back what `eprintln!`
/// prints.
pub fn say(line: &str) {
    writeln!(io::stderr(), "{line}").expect("standard error takes a line");
}
