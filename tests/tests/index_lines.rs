//! Holds the lines of an index and of a seek to the rules in docs/RULES.md (section 15): their text,
//! where they are put, and that nothing is put where they do not fit.

use embulgri_tests::ffi_lines::{
    index_first, index_records, seek_begin, seek_first, seek_found, seek_refused,
};
use embulgri_tests::index::Index;
use embulgri_tests::line_calls::{check_line, check_records};
use embulgri_tests::line_inputs::{any_number, any_sequence, room, FAR};
use embulgri_tests::lines::{record_lines, Line, LONGEST_RECORD};
use embulgri_tests::random::{times, Random};
use embulgri_tests::tally::{Classes, Spread};

const LINES: usize = 200_000;
const INDEXES: usize = 40_000;
const LEAST_OF_EACH: usize = 1_000;
const LEAST_PUT: usize = 500_000;

const MOST: (u64, u64, u32) = (u64::MAX, u64::MAX, u32::MAX);

fn index(records: &[(u64, u64, u32)]) -> Index {
    let mut index = Index::default();
    for &(granule, place, sequence) in records {
        index.push(granule, place, sequence);
    }
    index
}

#[test]
fn the_lines_of_the_rules_own_example() {
    let mut out = [0; 100];
    let at = index_first(&mut out, 0);
    let mut put = [0; 2];
    let records = index(&[(960, 5_123, 2), (1_920, 5_423, 3)]);
    index_records(&records, &mut out, at, &mut put);
    assert_eq!(put, [2, 46]);
    let text = b"granule place sequence\n960 5123 2\n1920 5423 3\n";
    assert_eq!(out[..46], text[..]);
    assert!(out[46..].iter().all(|&byte| byte == 0));
    let at = seek_first(&mut out, 0);
    let at = seek_found([960, 5_123, 7], 2, &mut out, at);
    let at = seek_begin(7, &mut out, at);
    let at = seek_refused(26, 3, &mut out, at);
    let text = b"granule place sequence probes\n960 5123 2 7\nbegin 7\nrefused 26 place 3\n";
    assert_eq!(out[..at as usize], text[..]);
    assert!(out[at as usize..].iter().all(|&byte| byte == 0));
}

/// The line of a record that a seek found.
fn found([granule, place, probes]: [u64; 3], sequence: u32) -> Line {
    Line::Found {
        granule,
        place,
        sequence,
        probes,
    }
}

#[test]
fn every_length_of_the_output_is_enough_for_a_line_or_not() {
    let unsought = |number, place| Line::Unsought { number, place };
    let lines = [
        (Line::IndexFirst, 23),
        (Line::SeekFirst, 30),
        (found([0; 3], 0), 8),
        (found([9, 10, 99], 100), 12),
        (found([u64::MAX; 3], u32::MAX), 74),
        (Line::Begin { probes: 0 }, 8),
        (Line::Begin { probes: u64::MAX }, 27),
        (Line::Number(24), 11),
        (Line::Number(u64::MAX), 29),
        (unsought(26, 3), 19),
        (unsought(u64::MAX, u64::MAX), 56),
    ];
    for (line, length) in lines {
        for at in [0, 1, 84] {
            for room in 0..=at + length + 30 {
                let end = check_line(&line, room, at as u64, "every length");
                let put = if room >= at + length { length } else { 0 };
                assert_eq!(end as usize, at + put, "{line:?}");
            }
        }
        for at in FAR {
            assert_eq!(check_line(&line, 200, at, "far"), at);
            assert_eq!(check_line(&line, 0, at, "far from nothing"), at);
        }
    }
}

#[test]
fn lines_of_records_are_put_while_53_bytes_are_left() {
    let short = index(&[(1, 1, 1); 3]);
    for (room, count) in [
        (0, 0),
        (52, 0),
        (53, 1),
        (58, 1),
        (59, 2),
        (64, 2),
        (65, 3),
        (200, 3),
    ] {
        assert_eq!(check_records(&short, room, 0, "short"), [count, 6 * count]);
        let told = check_records(&short, room + 9, 9, "short, later");
        assert_eq!(told, [count, 9 + 6 * count]);
    }
    let long = index(&[MOST; 2]);
    for (room, count) in [(52, 0), (53, 1), (105, 1), (106, 2), (400, 2)] {
        assert_eq!(check_records(&long, room, 0, "long"), [count, 53 * count]);
    }
    for at in FAR {
        assert_eq!(check_records(&long, 300, at, "far"), [0, at]);
    }
    assert_eq!(check_records(&long, 300, 301, "past the end"), [0, 301]);
    assert_eq!(check_records(&index(&[]), 300, 7, "none"), [0, 7]);
}

#[test]
fn the_shortest_list_says_how_many_records_there_are() {
    for place in 0..3 {
        for count in 0..3 {
            let mut index = index(&[(1, 2, 3); 5]);
            match place {
                0 => index.granules.truncate(count),
                1 => index.places.truncate(count),
                _ => index.sequences.truncate(count),
            }
            let told = check_records(&index, 500, 0, "one list shorter");
            assert_eq!(told, [count as u64, 6 * count as u64]);
        }
    }
}

#[test]
fn records_at_every_room_are_put_or_not() {
    let pages = 0..12_u32;
    let steps = pages.map(|page| (48_000 * u64::from(page), 4_000 * u64::from(page), page));
    let index = index(&steps.collect::<Vec<_>>());
    for room in 0..=450 {
        for at in [0, 3, 200] {
            check_records(&index, room, at, "every room");
        }
    }
}

/// A line of any kind, and the kind's name.
fn any_line(random: &mut Random) -> (Line, &'static str) {
    let [first, second, third] = [(); 3].map(|()| any_number(random));
    match random.below(9) {
        0 => (Line::IndexFirst, "first line of an index"),
        1 => (Line::SeekFirst, "first line of a seek"),
        2..=4 => {
            let sequence = any_sequence(random);
            (found([first, second, third], sequence), "record found")
        }
        5 => (Line::Begin { probes: first }, "begin"),
        6 => (Line::Number(first), "refusal by a number"),
        _ => {
            let (number, place) = (first, second);
            (Line::Unsought { number, place }, "refusal")
        }
    }
}

#[test]
fn any_line_is_put_where_it_fits() {
    let mut random = Random::of_run(145);
    let mut classes = Classes::default();
    for number in 0..LINES * times() {
        let (line, name) = any_line(&mut random);
        let at = random.below(200);
        let room = room(&mut random, at, line.text().len());
        let end = check_line(&line, room, at as u64, number);
        let outcome = if end as usize > at { "put" } else { "left out" };
        classes.add(format!("{name}, {outcome}"));
    }
    let names = [
        "first line of an index",
        "first line of a seek",
        "record found",
        "begin",
        "refusal by a number",
        "refusal",
    ];
    let known = names.map(|name| ["put", "left out"].map(|o| format!("{name}, {o}")));
    classes.finish(&known.concat(), LEAST_OF_EACH);
}

/// Records as a stream has them, or any numbers. Sometimes a list is shorter.
fn records(random: &mut Random) -> Index {
    let mut index = Index::default();
    let is_stream = random.one_in(2);
    let (mut granule, mut place) = (any_number(random), any_number(random) >> 20);
    let mut sequence = any_sequence(random);
    for _ in 0..random.below(60) {
        index.push(granule, place, sequence);
        if is_stream {
            granule = granule.wrapping_add(48_000);
            place += random.below(9_000) as u64;
            sequence = sequence.wrapping_add(1);
        } else {
            granule = any_number(random);
            place = any_number(random);
            sequence = any_sequence(random);
        }
    }
    let count = random.below(index.count() + 1);
    match random.below(24) {
        0 => index.granules.truncate(count),
        1 => index.places.truncate(count),
        2 => index.sequences.truncate(count),
        _ => (),
    }
    index
}

#[test]
fn the_lines_of_any_records_are_put_while_there_is_room() {
    let mut random = Random::of_run(146);
    let mut classes = Classes::default();
    let mut digits: Spread<21> = Spread::default();
    let mut put = 0;
    for number in 0..INDEXES * times() {
        let index = records(&mut random);
        let lines = record_lines(&index);
        let (at, length) = (random.below(300), lines.concat().len());
        let last = lines.last().map_or(0, String::len);
        let most = room(&mut random, at, length + LONGEST_RECORD - last);
        let [count, _] = check_records(&index, most, at as u64, number);
        let all = count == lines.len() as u64;
        let class = ["some lines left out", "all lines put"][usize::from(all)];
        classes.add(class.to_string());
        put += count as usize;
        for granule in &index.granules[..count as usize] {
            digits.add(granule.to_string().len() as u64);
        }
    }
    let known = ["all lines put", "some lines left out"].map(str::to_string);
    classes.finish(&known, LEAST_OF_EACH);
    let name = "lines put, by digits of the granule position";
    digits.finish(name, 1, LEAST_OF_EACH);
    assert!(put >= LEAST_PUT, "too few lines put: {put}");
}
