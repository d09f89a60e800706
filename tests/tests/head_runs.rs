//! Holds the reading and the writing of identification headers to an independent implementation on
//! random ones, and to each other.

use embulgri_tests::calls::{check_head, found_head};
use embulgri_tests::damages::UNDAMAGED;
use embulgri_tests::demands::ROOMS;
use embulgri_tests::head::{encode, BAD_HEAD, BAD_MAPPING, UNFIT_FIELDS, VERSION, WRITTEN};
use embulgri_tests::head_damages::DAMAGES;
use embulgri_tests::head_demands::{DEMANDS, MATRICES, READ_VERSIONS};
use embulgri_tests::head_inputs::{head, head_to_read, more_bytes, packet, version};
use embulgri_tests::head_mappings::{LEGAL, WRONG_MAPPINGS};
use embulgri_tests::inputs::shifted;
use embulgri_tests::ogg::NO_ROOM;
use embulgri_tests::random::Random;
use embulgri_tests::tally::{Classes, Tally, Versions};
use embulgri_tests::writing::{assert_same_bytes, check_writing, written, Request, BEFORE};

const CASES: usize = 240_000;
const LEAST_CASES: usize = 200_000;
const ROUND_TRIPS: usize = 50_000;
const LEAST_OF_EACH_VERSION: usize = 1_000;
const LEAST_OF_EACH_FAMILY: usize = 10_000;

#[test]
fn reading_gives_the_number_the_fields_and_the_mapping_that_the_rules_say() {
    let mut random = Random::of_run(51);
    let mut tally = Tally::default();
    let mut versions = Versions::default();
    let mut families = Classes::default();
    for number in 0..CASES {
        let mut head = head(&mut random);
        let (mapping, damage) = match random.below(8) {
            0..=3 => (&LEGAL, &UNDAMAGED),
            4..=5 => (random.pick(WRONG_MAPPINGS), &UNDAMAGED),
            6 => (&LEGAL, random.pick(DAMAGES)),
            _ => (random.pick(WRONG_MAPPINGS), random.pick(DAMAGES)),
        };
        (mapping.apply)(&mut random, &mut head);
        head.version = version(&mut random);
        let mut bytes = packet(&mut random, &head);
        (damage.apply)(&mut random, &mut bytes);
        let (buffer, start) = shifted(&mut random, &bytes);
        let case = format!("input {number}: {}, {}", mapping.name, damage.name);
        let told = check_head(&buffer[start..], &case);
        if let Ok(head) = &told {
            versions.add(head.version);
            families.add(format!("headers accepted of family {}", head.family));
        }
        let answer = told.err().unwrap_or(0);
        let answers = match damage.name == UNDAMAGED.name {
            true => mapping.answers,
            false => damage.answers,
        };
        assert!(answers.contains(&answer), "{answer}, {case}");
        tally.add(answer);
    }
    tally.finish("headers read", LEAST_CASES, &[BAD_HEAD, BAD_MAPPING]);
    versions.finish("headers accepted, by version", 0, LEAST_OF_EACH_VERSION);
    let known = [0, 1, 2, 3, 255].map(|family| format!("headers accepted of family {family}"));
    families.finish(&known, LEAST_OF_EACH_FAMILY);
}

#[test]
fn writing_gives_the_number_and_the_bytes_that_the_rules_say() {
    let mut random = Random::of_run(52);
    let mut tally = Tally::default();
    for number in 0..CASES {
        let mut head = head(&mut random);
        let demand = match random.below(16) {
            0..=1 => random.pick(WRONG_MAPPINGS),
            2..=3 => random.pick(DEMANDS),
            4 => random.pick(READ_VERSIONS),
            5 => random.pick(MATRICES),
            _ => &LEGAL,
        };
        (demand.apply)(&mut random, &mut head);
        let lent = random.pick(ROOMS);
        let mut room = head.length();
        (lent.apply)(&mut random, &mut room);
        let request = Request {
            input: &head,
            before: BEFORE + random.below(16),
            room,
        };
        let case = format!("input {number}: {}, output {}", demand.name, lent.name);
        let answer = check_writing(&request, &case);
        assert!(demand.answers.contains(&answer), "{answer}, {case}");
        assert!(
            answer == UNFIT_FIELDS || lent.answers.contains(&answer),
            "{answer}, {case}"
        );
        tally.add(answer);
    }
    tally.finish("headers written", LEAST_CASES, &[NO_ROOM, UNFIT_FIELDS]);
}

#[test]
fn reading_what_was_written_gives_the_same_fields_and_mapping() {
    let mut random = Random::of_run(53);
    for _ in 0..ROUND_TRIPS {
        let head = head(&mut random);
        assert_eq!(found_head(&written(&head)), head);
    }
}

#[test]
fn a_header_of_any_version_is_written_as_version_1_and_read_back() {
    let mut random = Random::of_run(55);
    let mut versions = Versions::default();
    for number in 0..ROUND_TRIPS {
        let head = head_to_read(&mut random);
        let bytes = packet(&mut random, &head);
        let mut found = found_head(&bytes);
        assert_eq!(found, head);
        versions.add(found.version);
        found.version = WRITTEN;
        let again = written(&found);
        let mut same = bytes[..again.len()].to_vec();
        same[VERSION] = 1;
        assert_same_bytes(&again, &same, format_args!("header {number}"));
        assert_eq!(found_head(&again), found);
    }
    versions.finish(
        "headers written again, by version",
        0,
        LEAST_OF_EACH_VERSION,
    );
}

#[test]
fn headers_that_differ_in_the_bytes_after_the_fields_are_read_alike() {
    let mut random = Random::of_run(56);
    let mut versions = Versions::default();
    for _ in 0..ROUND_TRIPS {
        let mut head = head(&mut random);
        head.version = random.within(2..=15) as u64;
        let one = [encode(&head), more_bytes(&mut random)].concat();
        let other = [encode(&head), more_bytes(&mut random)].concat();
        assert_eq!(found_head(&one), head);
        assert_eq!(found_head(&other), head);
        versions.add(head.version);
    }
    versions.finish(
        "headers with other bytes after the fields, by version",
        2,
        LEAST_OF_EACH_VERSION,
    );
}

#[test]
fn writing_what_was_read_gives_the_same_bytes() {
    let mut random = Random::of_run(54);
    for number in 0..ROUND_TRIPS {
        let bytes = encode(&head(&mut random));
        let again = written(&found_head(&bytes));
        assert_same_bytes(&again, &bytes, format_args!("header {number}"));
    }
}
