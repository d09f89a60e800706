//! Holds the lines of a listing to the rules in docs/RULES.md (section 11): their text, where they are
//! put, and that nothing is put where they do not fit.

use embulgri_tests::ffi_lines::{list_entries, list_first, list_refused, list_total};
use embulgri_tests::line_calls::{check_line, check_packets};
use embulgri_tests::line_inputs::{any_number, of_digits, room, FAR};
use embulgri_tests::lines::{Line, Packets, LONGEST_LINE};
use embulgri_tests::random::{times, Random};
use embulgri_tests::reader::NUMBERS;
use embulgri_tests::tally::{Classes, Spread};

const LINES: usize = 200_000;
const LISTS: usize = 40_000;
const LEAST_OF_EACH: usize = 1_000;
const LEAST_PUT: usize = 500_000;

/// A reader's numbers with these totals.
fn state(totals: [u64; 4]) -> [u64; NUMBERS] {
    let mut numbers = [5; NUMBERS];
    numbers[10..14].copy_from_slice(&totals);
    numbers
}

fn packets(entries: &[[u64; 4]]) -> Packets {
    let mut packets = Packets::default();
    for &entry in entries {
        packets.push(entry);
    }
    packets
}

#[test]
fn the_listing_of_the_rules_own_example() {
    let entries = [
        [960, 960, 1, 648],
        [1_920, 960, 1, 960],
        [2_880, 960, 1, 960],
    ];
    let text = b"end dur frames kept\n960 960 1 648\n1920 960 1 960\n2880 960 1 960\n\
                 total kept=2568 skipped=312 trimmed=0 hole=0\n";
    let mut out = [0; 200];
    let at = list_first(&mut out, 0);
    let mut put = [0; 2];
    list_entries(&packets(&entries), &mut out, at, &mut put);
    assert_eq!(put, [3, 64]);
    let at = list_total(&state([2_568, 312, 0, 0]), &mut out, put[1]);
    assert_eq!(out[..at as usize], text[..]);
    assert!(out[at as usize..].iter().all(|&byte| byte == 0));
    let at = list_refused(3, 5, &mut out, 20);
    assert_eq!(out[20..at as usize], b"refused 3 page 5\n"[..]);
}

#[test]
fn every_length_of_the_output_is_enough_for_a_line_or_not() {
    let lines = [
        (Line::First, 20),
        (Line::Total(state([0; 4])), 40),
        (Line::Total(state([9, 10, 99, 100])), 44),
        (Line::Total(state([u64::MAX; 4])), 116),
        (Line::Refused { number: 4, page: 2 }, 17),
        (
            Line::Refused {
                number: 19,
                page: 10,
            },
            19,
        ),
        (
            Line::Refused {
                number: u64::MAX,
                page: u64::MAX,
            },
            55,
        ),
    ];
    for (line, length) in lines {
        for at in [0, 1, 84] {
            for room in 0..=at + length + 30 {
                let end = check_line(&line, room, at as u64, "every length");
                let fits = room >= at + length;
                assert_eq!(
                    end as usize,
                    if fits { at + length } else { at },
                    "{line:?}"
                );
            }
        }
        for at in FAR {
            assert_eq!(check_line(&line, 200, at, "far"), at);
            assert_eq!(check_line(&line, 0, at, "far from nothing"), at);
        }
    }
}

#[test]
fn lines_of_packets_are_put_while_84_bytes_are_left() {
    let short = packets(&[[1, 1, 1, 1]; 3]);
    for (room, count) in [
        (0, 0),
        (83, 0),
        (84, 1),
        (91, 1),
        (92, 2),
        (99, 2),
        (100, 3),
    ] {
        assert_eq!(check_packets(&short, room, 0, "short"), [count, 8 * count]);
        let told = check_packets(&short, room + 9, 9, "short, later");
        assert_eq!(told, [count, 9 + 8 * count]);
    }
    let long = packets(&[[u64::MAX; 4]; 2]);
    for (room, count) in [(83, 0), (84, 1), (167, 1), (168, 2), (400, 2)] {
        assert_eq!(check_packets(&long, room, 0, "long"), [count, 84 * count]);
    }
    for at in FAR {
        assert_eq!(check_packets(&long, 300, at, "far"), [0, at]);
    }
    assert_eq!(check_packets(&long, 300, 301, "past the end"), [0, 301]);
    assert_eq!(check_packets(&packets(&[]), 300, 7, "none"), [0, 7]);
}

#[test]
fn the_shortest_list_says_how_many_packets_there_are() {
    for place in 0..4 {
        for count in 0..3 {
            let mut packets = packets(&[[1, 2, 3, 4]; 5]);
            let lists = [
                &mut packets.ends,
                &mut packets.lengths,
                &mut packets.frames,
                &mut packets.kept,
            ];
            lists[place].truncate(count);
            let told = check_packets(&packets, 500, 0, "one list shorter");
            assert_eq!(told, [count as u64, 8 * count as u64]);
        }
    }
}

#[test]
fn packets_at_every_room_are_put_or_not() {
    let steps = (0..12).map(|number| [9_999_000 + 960 * number, 960, 1, 960]);
    let packets = packets(&steps.collect::<Vec<_>>());
    for room in 0..=450 {
        for at in [0, 3, 200] {
            check_packets(&packets, room, at, "every room");
        }
    }
}

#[test]
fn any_line_is_put_where_it_fits() {
    let mut random = Random::of_run(116);
    let mut classes = Classes::default();
    for number in 0..LINES * times() {
        let (line, name) = match random.below(8) {
            0 => (Line::First, "first"),
            1..=4 => {
                let numbers = [(); NUMBERS].map(|()| any_number(&mut random));
                (Line::Total(numbers), "total")
            }
            _ => {
                let [number, page] = [(); 2].map(|()| any_number(&mut random));
                (Line::Refused { number, page }, "refused")
            }
        };
        let (at, length) = (random.below(200), line.text().len());
        let room = room(&mut random, at, length);
        let end = check_line(&line, room, at as u64, number);
        let outcome = if end as usize > at { "put" } else { "left out" };
        classes.add(format!("{name} line {outcome}"));
    }
    let names = ["first", "total", "refused"];
    let known = names.map(|name| ["put", "left out"].map(|o| format!("{name} line {o}")));
    classes.finish(&known.concat(), LEAST_OF_EACH);
}

/// Packets as a recording has them: the stamps grow by the lengths, which are mostly the same, from
/// a first one of any number of digits.
fn stream(random: &mut Random) -> Packets {
    let digits = random.within(1..=19) as u32;
    let mut end = match random.below(4) {
        0 => 10_u64
            .pow(digits)
            .saturating_sub(random.below(20_000) as u64),
        _ => of_digits(random, digits),
    };
    let mut packets = Packets::default();
    let mut same = [*random.pick(&[120, 960, 2_880, 5_760]), 1, 960];
    for _ in 0..random.below(60) {
        if random.one_in(12) {
            same = match random.below(3) {
                0 => [(); 3].map(|()| any_number(random)),
                1 => [
                    960,
                    random.within(1..=48) as u64,
                    random.below(5_761) as u64,
                ],
                _ => [*random.pick(&[9, 10, 99, 100, 120, 960, 5_760]), 2, 0],
            };
        }
        let [length, frames, kept] = same;
        end = match random.below(40) {
            0 => any_number(random),
            1 => end.wrapping_sub(length),
            2 => end,
            3 => end.wrapping_add(random.below(30_000) as u64),
            _ => end.wrapping_add(length),
        };
        packets.push([end, length, frames, kept]);
    }
    if random.one_in(8) {
        let count = random.below(packets.ends.len() + 1);
        let Packets { frames, kept, .. } = &mut packets;
        let list = if random.one_in(2) { frames } else { kept };
        list.truncate(count);
    }
    packets
}

#[test]
fn the_lines_of_any_packets_are_put_while_there_is_room() {
    let mut random = Random::of_run(117);
    let mut classes = Classes::default();
    let mut digits: Spread<21> = Spread::default();
    let mut put = 0;
    for number in 0..LISTS * times() {
        let packets = stream(&mut random);
        let lines = packets.lines();
        let (at, length) = (random.below(300), lines.concat().len());
        let last = lines.last().map_or(0, String::len);
        let room = match random.below(8) {
            0 => random.below(at + length + 1),
            1 => (at + length + LONGEST_LINE).saturating_sub(last + 1),
            2 => at + length + LONGEST_LINE - last,
            _ => at + length + random.within(LONGEST_LINE..=400),
        };
        let [count, _] = check_packets(&packets, room, at as u64, number);
        let all = count == lines.len() as u64;
        let class = if all {
            "all lines put"
        } else {
            "some lines left out"
        };
        classes.add(class.to_string());
        put += count as usize;
        for end in &packets.ends[..count as usize] {
            digits.add(end.to_string().len() as u64);
        }
    }
    let known = ["all lines put", "some lines left out"].map(str::to_string);
    classes.finish(&known, LEAST_OF_EACH);
    digits.finish("lines put, by digits of the stamp", 1, LEAST_OF_EACH);
    assert!(put >= LEAST_PUT, "too few lines put: {put}");
}
