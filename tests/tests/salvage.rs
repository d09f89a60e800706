//! Holds salvage to the rules in docs/RULES.md (section 16): on random streams damaged in every way, and
//! on every list of three plain pages.

use embulgri_tests::feeding::{CONTINUED, SHORT_ROOM};
use embulgri_tests::judging::{judge, HEADERS_INCOMPLETE};
use embulgri_tests::ogg::{self, Page, HEAD, NO_ROOM};
use embulgri_tests::random::{times, Random};
use embulgri_tests::salvage::{salvage, Rooms, Saved, COLUMNS, CUT, MARK, NUMBER, SKIP};
use embulgri_tests::salvage_calls::check_salvage;
use embulgri_tests::salvage_damages::DAMAGES;
use embulgri_tests::salvage_inputs::{damaged, rooms};
use embulgri_tests::salvage_pages::{headers, Plain};
use embulgri_tests::tally::{Classes, Tally};

const STREAMS: usize = 24_000;
const SAVED_AGAIN: usize = 4_000;
const LEAST_OF_EACH: usize = 200;

const REFUSALS: [u32; 3] = [SHORT_ROOM, HEADERS_INCOMPLETE, NO_ROOM];

/// What salvage can come to.
const CLASSES: [&str; 11] = [
    "unchanged",
    "bytes skipped",
    "a number changed",
    "a mark cleared",
    "a piece cut",
    "both pieces of a page cut",
    "a page refused",
    "a page refused after a later one",
    "a page emptied",
    "a page that was empty kept",
    "a packet over pages kept",
];

fn classes_of(saved: &Saved) -> [bool; CLASSES.len()] {
    let tells = |what| saved.lines.iter().any(|line| line[0] == what);
    let any = |is: fn(&Page, &Page) -> bool| {
        let mut kept = saved.kept.iter();
        kept.any(|(good, tidied)| is(&good.page, &tidied.page))
    };
    [
        saved.lines.is_empty(),
        tells(SKIP),
        tells(NUMBER),
        tells(MARK),
        tells(CUT),
        saved.kept.iter().any(|(_, tidied)| tidied.cuts.len() == 2),
        !saved.missing.is_empty(),
        saved.missing.windows(2).any(|two| two[1] < two[0]),
        any(|old, new| new.lacing.is_empty() && !old.lacing.is_empty()),
        any(|old, _| old.lacing.is_empty()),
        any(|_, new| new.flags & CONTINUED != 0),
    ]
}

#[test]
fn random_damaged_streams_are_salvaged_by_the_rules() {
    let mut random = Random::of_run(171);
    let mut tally = Tally::default();
    let (mut ways, mut classes) = (Classes::default(), Classes::default());
    for number in 0..STREAMS * times() {
        let damaged = damaged(&mut random);
        let case = format!("stream {number}, {}", damaged.ways.join(", "));
        let told = salvage(&damaged.bytes);
        let rooms = rooms(&mut random, damaged.bytes.len(), &told);
        let answer = check_salvage(&damaged.bytes, &told, &rooms, &case);
        tally.add(answer);
        for way in damaged.ways {
            ways.add(way.to_string());
        }
        if let (0, Ok(saved)) = (answer, &told) {
            let names = CLASSES.iter().zip(classes_of(saved));
            for (name, _) in names.filter(|(_, is)| *is) {
                classes.add(name.to_string());
            }
        }
    }
    tally.finish_by("streams salvaged", STREAMS, &REFUSALS, LEAST_OF_EACH);
    let names: Vec<String> = DAMAGES.iter().map(|way| way.name.to_string()).collect();
    ways.finish(&names, LEAST_OF_EACH);
    classes.finish(&CLASSES.map(str::to_string), LEAST_OF_EACH);
}

/// Room for what is saved, and not more.
fn just_enough(length: usize, saved: &Saved) -> Rooms {
    Rooms {
        work: length / HEAD,
        output: saved.bytes.len(),
        columns: [saved.lines.len(); COLUMNS],
    }
}

#[test]
fn what_is_saved_is_a_whole_stream_that_stays_as_it_is() {
    let mut random = Random::of_run(172);
    let mut left = SAVED_AGAIN * times();
    while left > 0 {
        let bytes = damaged(&mut random).bytes;
        let Ok(saved) = salvage(&bytes) else {
            continue;
        };
        left -= 1;
        let case = format!("stream {left}");
        assert!(saved.bytes.len() <= bytes.len(), "{case}");
        assert!(saved.lines.len() <= bytes.len() / 7 + 1, "{case}");
        assert_eq!(judge(&saved.bytes), Ok(saved.kept.len()), "{case}");
        let told = salvage(&saved.bytes);
        let again = told.as_ref().expect("a whole stream");
        assert_eq!(again.bytes, saved.bytes, "{case}");
        assert!(again.lines.is_empty(), "{case}");
        let rooms = just_enough(saved.bytes.len(), again);
        assert_eq!(check_salvage(&saved.bytes, &told, &rooms, case), 0);
    }
}

#[test]
fn one_place_less_is_refused_in_the_order_of_the_numbers() {
    let mut random = Random::of_run(173);
    let mut left = 300;
    while left > 0 {
        let bytes = damaged(&mut random).bytes;
        let told = salvage(&bytes);
        let Ok(saved) = &told else {
            continue;
        };
        if saved.lines.is_empty() {
            continue;
        }
        left -= 1;
        let enough = just_enough(bytes.len(), saved);
        let answer = |rooms: Rooms| check_salvage(&bytes, &told, &rooms, format!("stream {left}"));
        assert_eq!(answer(enough), 0);
        let mut short = enough;
        short.output -= 1;
        assert_eq!(answer(short), NO_ROOM);
        short.work -= 1;
        assert_eq!(answer(short), SHORT_ROOM);
        for column in 0..COLUMNS {
            let mut short = enough;
            short.columns[column] -= 1;
            assert_eq!(answer(short), NO_ROOM);
        }
    }
}

#[test]
fn bytes_without_a_first_page_lack_headers() {
    let first = ogg::encode(&headers()[0]);
    let second = ogg::encode(&headers()[1]);
    let none = Rooms {
        work: 0,
        output: 0,
        columns: [0; COLUMNS],
    };
    for bytes in [&[][..], &first[..HEAD - 1], b"OggS"] {
        let answer = check_salvage(bytes, &salvage(bytes), &none, "no page");
        assert_eq!(answer, HEADERS_INCOMPLETE);
    }
    for bytes in [&first, &second, &[&second[..], &first].concat()] {
        let work = bytes.len() / HEAD;
        let told = salvage(bytes);
        let short = Rooms { work, ..none };
        let answer = check_salvage(bytes, &told, &short, "headers");
        assert_eq!(answer, HEADERS_INCOMPLETE);
        let answer = check_salvage(bytes, &told, &none, "headers");
        assert_eq!(answer, SHORT_ROOM);
    }
}

/// The pages that can stand at a place of the list: each of these lacing values, marked continued or
/// not, with the number after the one before, the same, or one more.
fn choices(before: u32) -> Vec<Plain> {
    let lacings: [&[u8]; 6] = [&[], &[3], &[255], &[3, 255], &[4, 9], &[5, 9, 255]];
    let mut choices = Vec::new();
    for number in before..=before + 2 {
        for lacing in lacings {
            choices.push(Plain::new(number, lacing));
            choices.push(Plain::continued(number, lacing));
        }
    }
    choices
}

#[test]
fn every_list_of_three_pages_is_salvaged_by_the_rules() {
    let mut tally = Tally::default();
    let headers: Vec<u8> = headers().iter().flat_map(ogg::encode).collect();
    for first in choices(1).iter().filter(|plain| plain.number == 2) {
        for second in choices(first.number) {
            for third in choices(second.number) {
                let list = [first, &second, &third];
                let mut bytes = headers.clone();
                bytes.extend(list.iter().flat_map(|plain| ogg::encode(&plain.page())));
                let told = salvage(&bytes);
                let saved = told.as_ref().expect("whole headers");
                let rooms = just_enough(bytes.len(), saved);
                tally.add(check_salvage(&bytes, &told, &rooms, format!("{list:?}")));
            }
        }
    }
    tally.finish("lists of three pages", 12 * 36 * 36, &[]);
}
