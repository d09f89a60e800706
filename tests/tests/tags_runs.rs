//! Holds the reading and the writing of comment headers to an independent implementation on random
//! ones, and to each other.

use embulgri_tests::damages::UNDAMAGED;
use embulgri_tests::demands::ROOMS;
use embulgri_tests::head::UNFIT_FIELDS;
use embulgri_tests::inputs::{shifted, Change};
use embulgri_tests::ogg::NO_ROOM;
use embulgri_tests::random::Random;
use embulgri_tests::tags::{encode, JoinedTags, Tags, BAD_GAIN, BAD_TAGS, NO_SUCH_COMMENT};
use embulgri_tests::tags_calls::{found_tags, Packet};
use embulgri_tests::tags_damages::{DAMAGES, LEGAL, RIGHT_CHANGES, WRONG_CHANGES};
use embulgri_tests::tags_demands::{AS_IT_IS, DEMANDS, LONG};
use embulgri_tests::tags_inputs::{gain_tags, tags};
use embulgri_tests::tally::Tally;
use embulgri_tests::writing::{assert_same_bytes, check_writing, written, Request, BEFORE};

const CASES: usize = 240_000;
const LEAST_CASES: usize = 200_000;
const ROUND_TRIPS: usize = 50_000;

/// A way to change a header and a way to damage its bytes, mostly neither.
fn changes(random: &mut Random) -> (&'static Change<Tags>, &'static Change<Vec<u8>>) {
    match random.below(8) {
        0..=2 => (&LEGAL, &UNDAMAGED),
        3 => (random.pick(RIGHT_CHANGES), &UNDAMAGED),
        4 => (random.pick(WRONG_CHANGES), &UNDAMAGED),
        _ => (&LEGAL, random.pick(DAMAGES)),
    }
}

/// A number of a comment: mostly one below the count.
fn number(random: &mut Random, count: u64) -> u64 {
    match random.below(8) {
        0 => count,
        1 => *random.pick(&[count + 1, u64::MAX, 1 << 32, (1 << 32) + count / 2, 1 << 63]),
        _ => random.below(count.max(1) as usize) as u64,
    }
}

#[test]
fn reading_gives_the_number_and_the_parts_that_the_rules_say() {
    let mut random = Random::of_run(81);
    let mut read = Tally::default();
    let mut asked = Tally::default();
    for input in 0..CASES {
        let mut tags = tags(&mut random);
        let (change, damage) = changes(&mut random);
        (change.apply)(&mut random, &mut tags);
        let mut bytes = encode(&tags);
        (damage.apply)(&mut random, &mut bytes);
        let (buffer, start) = shifted(&mut random, &bytes);
        let case = format!("input {input}: {}, {}", change.name, damage.name);
        let packet = Packet::checked(&buffer[start..], &case);
        let answers = match damage.name == UNDAMAGED.name {
            true => change.answers,
            false => damage.answers,
        };
        let answer = packet.answer();
        assert!(answers.contains(&answer), "{answer}, {case}");
        read.add(answer);
        for _ in 0..2 {
            let number = number(&mut random, packet.count());
            asked.add(packet.comment(number, &case));
        }
    }
    read.finish("comment headers read", LEAST_CASES, &[BAD_TAGS]);
    asked.finish(
        "comments asked for",
        LEAST_CASES,
        &[BAD_TAGS, NO_SUCH_COMMENT],
    );
}

#[test]
fn gains_are_what_the_rules_say() {
    let mut random = Random::of_run(82);
    let mut tally = Tally::default();
    for input in 0..CASES {
        let mut tags = gain_tags(&mut random);
        let change = match random.below(16) {
            0 => random.pick(RIGHT_CHANGES),
            1 => random.pick(WRONG_CHANGES),
            _ => &LEGAL,
        };
        (change.apply)(&mut random, &mut tags);
        let mut bytes = encode(&tags);
        if random.one_in(16) {
            let place = random.below(bytes.len());
            bytes[place] = random.byte();
        }
        let case = format!("input {input}: {}", change.name);
        let packet = Packet::checked(&bytes, &case);
        let gains = packet.gains();
        let number = match gains.is_empty() || random.one_in(4) {
            true => number(&mut random, packet.count()),
            false => *random.pick(&gains),
        };
        tally.add(packet.gain(number, &case));
    }
    let refusals = [BAD_TAGS, NO_SUCH_COMMENT, BAD_GAIN];
    tally.finish("gains asked for", LEAST_CASES, &refusals);
}

#[test]
fn writing_gives_the_number_and_the_bytes_that_the_rules_say() {
    let mut random = Random::of_run(83);
    let mut tally = Tally::default();
    for input in 0..CASES {
        let mut tags = tags(&mut random);
        let change = match random.below(8) {
            0 => random.pick(WRONG_CHANGES),
            1 => random.pick(RIGHT_CHANGES),
            _ => &LEGAL,
        };
        (change.apply)(&mut random, &mut tags);
        let mut joined = JoinedTags::of(&tags);
        let demand = match random.below(64) {
            0..=7 => random.pick(DEMANDS),
            8 => random.pick(LONG),
            _ => &AS_IT_IS,
        };
        (demand.apply)(&mut random, &mut joined);
        let lent = random.pick(ROOMS);
        let mut room = joined.length();
        (lent.apply)(&mut random, &mut room);
        let request = Request {
            input: &joined,
            before: BEFORE + random.below(16),
            room,
        };
        let case = format!(
            "input {input}: {}, {}, output {}",
            change.name, demand.name, lent.name
        );
        let answer = check_writing(&request, &case);
        let wrong = [change.answers, demand.answers]
            .iter()
            .any(|answers| answers.contains(&UNFIT_FIELDS));
        assert_eq!(answer == UNFIT_FIELDS, wrong, "{answer}, {case}");
        assert!(wrong || lent.answers.contains(&answer), "{answer}, {case}");
        tally.add(answer);
    }
    let refusals = [NO_ROOM, UNFIT_FIELDS];
    tally.finish("comment headers written", LEAST_CASES, &refusals);
}

#[test]
fn reading_what_was_written_gives_the_same_vendor_and_comments() {
    let mut random = Random::of_run(84);
    for _ in 0..ROUND_TRIPS {
        let tags = tags(&mut random);
        assert_eq!(found_tags(&written(&JoinedTags::of(&tags))), tags);
    }
}

#[test]
fn writing_what_was_read_gives_the_same_bytes_but_for_those_after() {
    let mut random = Random::of_run(85);
    for input in 0..ROUND_TRIPS {
        let right = encode(&tags(&mut random));
        let after = random.below(20);
        let packet = [&right[..], &random.bytes(after)].concat();
        let again = written(&JoinedTags::of(&found_tags(&packet)));
        assert_same_bytes(&again, &right, format_args!("packet {input}"));
    }
}
