//! Any sixteen numbers are a reader: holds feeding to the independent reader that they represent by
//! the stated rule, and opening part way to the rules of headers.

use embulgri_tests::changed_numbers::{changed, fit};
use embulgri_tests::feed_calls::{Feeder, Room};
use embulgri_tests::feed_choice::{fault, room};
use embulgri_tests::feeding::REFUSALS;
use embulgri_tests::head::{UNFIT_FIELDS, WRITTEN};
use embulgri_tests::head_demands::DEMANDS;
use embulgri_tests::head_inputs::{head, version};
use embulgri_tests::head_mappings::{LEGAL, WRONG_MAPPINGS};
use embulgri_tests::ogg;
use embulgri_tests::random::{times, Random};
use embulgri_tests::reader::{Reader, NUMBERS};
use embulgri_tests::recording::{recording, Written};
use embulgri_tests::tally::{Moves, Tally};

const RECORDINGS: usize = 8_000;
const LEAST_FEEDINGS: usize = 100_000;
const LEAST_OF_EACH: usize = 200;
const LEAST_MOVED: usize = 1_000;
const OPENINGS: usize = 120_000;
const LEAST_OPENINGS: usize = 100_000;

/// What a reader of changed numbers is fed: mostly a page that it expects, sometimes a wrong one.
fn page_for(random: &mut Random, reader: Reader, written: &Written) -> (Vec<u8>, Room) {
    let mut written = written.clone();
    if !random.one_in(8) {
        fit(&mut written.page, &reader);
    }
    if !random.one_in(3) {
        return (ogg::encode(&written.page), room(random));
    }
    let wrong = fault(random, reader, &written);
    (wrong.bytes, wrong.room)
}

#[test]
fn any_numbers_are_the_reader_that_they_stand_for() {
    let mut random = Random::of_run(94);
    let (mut tally, mut moves) = (Tally::default(), Moves::default());
    let mut feeder = Feeder::started();
    for recorded in 0..RECORDINGS * times() {
        feeder.start();
        for written in recording(&mut random).pages {
            for _ in 0..3 {
                let (numbers, name) = changed(&mut random, feeder.numbers());
                let reader = Reader::from_numbers(&numbers);
                let (page, room) = page_for(&mut random, reader, &written);
                let mut other = feeder.clone();
                other.set(numbers);
                let before = other.totals();
                let case = format!("recording {recorded}: {name}, {numbers:?}");
                let told = other.feed(&page, room, &case);
                tally.add(told.err().unwrap_or(0));
                moves.add(before, other.totals());
            }
            let bytes = ogg::encode(&written.page);
            let told = feeder.feed(&bytes, room(&mut random), "the page itself");
            assert!(told.is_ok(), "recording {recorded}");
        }
    }
    let run = "pages to any sixteen numbers";
    tally.finish_by(run, LEAST_FEEDINGS, &REFUSALS, LEAST_OF_EACH);
    moves.finish("totals of any numbers", [LEAST_MOVED, LEAST_OF_EACH]);
}

#[test]
fn opening_takes_the_headers_that_reading_gives_and_no_others() {
    let mut random = Random::of_run(95);
    let mut tally = Tally::default();
    let mut feeder = Feeder::started();
    for number in 0..OPENINGS {
        let mut head = head(&mut random);
        let demand = match random.below(4) {
            0 => random.pick(WRONG_MAPPINGS),
            1 => random.pick(DEMANDS),
            _ => &LEGAL,
        };
        (demand.apply)(&mut random, &mut head);
        if head.version == WRITTEN {
            head.version = version(&mut random);
        }
        feeder.set([random.number(); NUMBERS]);
        let answer = feeder.open(&head, format!("header {number}: {}", demand.name));
        assert!(
            demand.answers.contains(&answer),
            "{answer}, {}",
            demand.name
        );
        tally.add(answer);
    }
    tally.finish("readers opened", LEAST_OPENINGS, &[UNFIT_FIELDS]);
}
