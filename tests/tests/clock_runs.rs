//! Holds the old clock to Rust's own `f32`: on a run of the shortest packets until the reading
//! no longer changes, on runs of any packets, and on random records and lengths.

use embulgri_tests::clock::{check_adding, Clock, CLOCK_RANGE, MOST};
use embulgri_tests::clock_inputs::{right_length, COUNTS, READINGS, WRONG_LENGTHS};
use embulgri_tests::inputs::Change;
use embulgri_tests::random::Random;
use embulgri_tests::tally::Tally;
use std::ops::RangeInclusive;

const CASES: usize = 2_000_000;
const LEAST_CASES: usize = 1_000_000;
const RUNS: usize = 8;

/// As far as the reading is the count, whatever the lengths.
const EQUAL_TO: u64 = 134_217_728;

/// The least count of a run of 120s at which the reading differs, and that reading.
const FIRST_WRONG: (u64, f32) = (134_217_960, 134_217_952.0);

/// The counts of a run of 120s where the reading is above the count.
const AHEAD: RangeInclusive<u64> = 134_218_200..=1 << 31;

/// The count of a run of 120s at which the reading reaches 2^31.
const LAST_MOVE: u64 = 2_021_654_640;
const STILL: f32 = 2_147_483_648.0;

/// Adds a length that is taken.
fn added(clock: Clock, length: u64, tally: &mut Tally) -> Clock {
    let (answer, next) = check_adding(clock, length, "a run");
    assert_eq!(answer, 0, "{clock:?} and {length}");
    tally.add(answer);
    next
}

#[test]
fn a_run_of_120s_goes_wrong_and_stands_still_where_the_documents_say() {
    let mut tally = Tally::default();
    let mut clock = Clock::START;
    while clock.count <= 1 << 31 {
        clock = added(clock, 120, &mut tally);
        if clock.count < FIRST_WRONG.0 {
            assert_eq!(clock.reading as u64, clock.count);
        }
        if clock.count == FIRST_WRONG.0 {
            assert_eq!(clock.reading, FIRST_WRONG.1);
        }
        let ahead = clock.reading as u64 > clock.count;
        assert_eq!(ahead, AHEAD.contains(&clock.count), "{clock:?}");
        assert_eq!(clock.reading == STILL, clock.count >= LAST_MOVE);
    }
    tally.print("a run of 120s on the clock");
}

#[test]
fn the_reading_is_the_count_at_first_whatever_the_lengths() {
    let mut random = Random::of_run(61);
    let mut tally = Tally::default();
    for _ in 0..RUNS {
        let mut clock = Clock::START;
        while clock.count <= EQUAL_TO {
            assert_eq!(clock.reading as u64, clock.count);
            clock = added(clock, right_length(&mut random), &mut tally);
        }
    }
    tally.print("runs of any packets on the clock");
}

#[test]
fn a_reading_of_2_to_the_31_does_not_move_by_120s_whatever_the_count() {
    for count in [0, 1, 1 << 31, MOST - 1_200, MOST + 1, u64::MAX] {
        let mut clock = Clock {
            reading: STILL,
            count,
        };
        for _ in 0..1_000 {
            (_, clock) = check_adding(clock, 120, "a reading that does not change");
            assert_eq!(clock.reading, STILL);
        }
    }
}

#[test]
fn adding_gives_the_number_and_the_record_that_the_rules_say() {
    let mut random = Random::of_run(62);
    let mut tally = Tally::default();
    for number in 0..CASES {
        let mut clock = Clock::START;
        let count = match random.one_in(4) {
            true => random.pick(COUNTS),
            false => random.pick(&COUNTS[..2]),
        };
        let reading = random.pick(READINGS);
        (count.apply)(&mut random, &mut clock);
        (reading.apply)(&mut random, &mut clock);
        let mut length = right_length(&mut random);
        let wrong = wrong_length(&mut random);
        if let Some(wrong) = wrong {
            (wrong.apply)(&mut random, &mut length);
        }
        let names = [reading.name, count.name, wrong.map_or("right", |w| w.name)];
        let case = format!("input {number}: {names:?}");
        let (answer, _) = check_adding(clock, length, &case);
        let answers = wrong.map_or(count.answers, |wrong| wrong.answers);
        assert!(answers.contains(&answer), "{answer}, {case}");
        tally.add(answer);
    }
    tally.finish("additions to the clock", LEAST_CASES, &[CLOCK_RANGE]);
}

fn wrong_length(random: &mut Random) -> Option<&'static Change<u64>> {
    random.one_in(4).then(|| random.pick(WRONG_LENGTHS))
}
