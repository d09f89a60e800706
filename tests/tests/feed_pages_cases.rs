//! Feeding the pages of a buffer in one call, worked out by hand: what is taken, why it stops, and
//! what it leaves.

use embulgri_tests::buffer_pages::Fed;
use embulgri_tests::by_hand::{feed, full, head_of, page, Listed, NO_TAGS, SOUND};
use embulgri_tests::feed_calls::{Feeder, Room, ENOUGH, MOST_OF_PAGES};
use embulgri_tests::feeding::{CONTINUED, FIRST, LAST, LIST, LISTS, NO_GRANULE};
use embulgri_tests::head;
use embulgri_tests::ogg::{self, CHECKSUM, HEAD};
use embulgri_tests::reader::{Phase, Unfinished, TOTALS};
use embulgri_tests::tags::LONGEST;

/// The reasons to stop, as they are stored.
const CUT: u64 = 0;
const FULL: u64 = 1;
const REFUSED: u64 = 2;

/// Lists that the pages of a test do not fill.
const WIDE: Room = Room {
    lists: [MOST_OF_PAGES; LISTS],
    ..ENOUGH
};

/// A carry buffer that is one byte too short.
const SHORT: Room = Room {
    carry: LONGEST - 1,
    ..WIDE
};

/// Lists of so many places.
fn lists(places: usize) -> Room {
    Room {
        lists: [places; LISTS],
        ..ENOUGH
    }
}

fn first_page(pre_skip: u64) -> Vec<u8> {
    page(FIRST, 0, 0, &[&head::encode(&head_of(pre_skip))])
}

/// Audio pages of one packet each, from a sequence number on.
fn audio(count: u32, sequence: u32) -> Vec<Vec<u8>> {
    (1..=count)
        .map(|number| page(0, 960 * u64::from(number), sequence + number - 1, &[SOUND]))
        .collect()
}

/// Feeds a buffer and gives the number returned and the four numbers stored.
fn fed(feeder: &mut Feeder, bytes: &[u8], room: Room) -> (u32, [u64; 4]) {
    let fed: Fed = feeder.feed_pages(bytes, room, "by hand");
    (fed.answer(), fed.numbers())
}

/// The first packets in the lists.
fn listed(feeder: &Feeder, count: usize) -> Vec<Listed> {
    let [ends, lengths, kept, frames] = feeder.listed(count);
    (0..count)
        .map(|place| (ends[place], lengths[place], kept[place], frames[place]))
        .collect()
}

#[test]
fn a_whole_recording_is_fed_in_one_call() {
    let pages = [
        first_page(312),
        page(0, 0, 1, &[NO_TAGS]),
        page(0, 2_880, 2, &[SOUND; 3]),
        page(0, NO_GRANULE, 3, &[]),
        page(LAST, 3_000, 4, &[SOUND]),
    ];
    let bytes = pages.concat();
    let mut feeder = Feeder::started();
    let taken = bytes.len() as u64;
    assert_eq!(fed(&mut feeder, &bytes, WIDE), (0, [taken, 5, 4, CUT]));
    let packets = [
        (960, 960, 648, 1),
        (1_920, 960, 960, 1),
        (2_880, 960, 960, 1),
        (3_840, 960, 120, 1),
    ];
    assert_eq!(listed(&feeder, 4), packets);
    assert_eq!(feeder.totals(), [2_688, 312, 840, 0]);
    assert_eq!(feeder.reader().phase, Phase::Ended);
}

#[test]
fn no_bytes_are_a_page_that_is_cut() {
    assert_eq!(fed(&mut full(0), &[], WIDE), (0, [0, 0, 0, CUT]));
    assert_eq!(fed(&mut full(0), &[], SHORT), (0, [0, 0, 0, CUT]));
    let mut ended = full(0);
    let end = page(LAST, NO_GRANULE, 2, &[]);
    assert_eq!(feed(&mut ended, &end), Ok(vec![]));
    assert_eq!(fed(&mut ended, &[], WIDE), (0, [0, 0, 0, CUT]));
}

#[test]
fn it_stops_before_all_else_where_a_list_has_254_places() {
    let bytes = audio(2, 2).concat();
    for place in 0..LISTS {
        let mut room = SHORT;
        room.lists[place] = LIST - 1;
        for bytes in [&bytes[..], &[], &[0; 40]] {
            assert_eq!(fed(&mut full(0), bytes, room), (0, [0, 0, 0, FULL]));
        }
    }
}

#[test]
fn it_stops_where_fewer_than_255_places_are_left() {
    let pages = audio(4, 2);
    let (bytes, size) = (pages.concat(), pages[0].len() as u64);
    for more in 0..4 {
        let room = lists(LIST + more);
        let count = more as u64 + 1;
        let mut feeder = full(0);
        let told = fed(&mut feeder, &bytes, room);
        assert_eq!(told, (0, [count * size, count, count, FULL]));
        assert_eq!(listed(&feeder, more + 1)[more].0, 960 * count);
        let rest = &bytes[told.1[0] as usize..];
        let (left, why) = if more < 3 { (1, FULL) } else { (0, CUT) };
        let told = fed(&mut feeder, rest, lists(LIST));
        assert_eq!(told, (0, [left * size, left, left, why]));
    }
    let told = fed(&mut full(0), &bytes, lists(LIST + 4));
    assert_eq!(told, (0, [4 * size, 4, 4, CUT]));
}

#[test]
fn the_shortest_of_the_lists_says_where_it_stops() {
    let bytes = audio(4, 2).concat();
    for place in 0..LISTS {
        let mut room = WIDE;
        room.lists[place] = LIST + 1;
        let told = fed(&mut full(0), &bytes, room);
        assert_eq!(told.1[1..], [2, 2, FULL]);
    }
}

#[test]
fn pages_that_list_nothing_need_no_places() {
    let mut bytes = [first_page(0), page(0, 0, 1, &[NO_TAGS])].concat();
    for sequence in 2..40 {
        bytes.extend(page(0, NO_GRANULE, sequence, &[]));
    }
    let told = fed(&mut Feeder::started(), &bytes, lists(LIST));
    assert_eq!(told, (0, [bytes.len() as u64, 40, 0, CUT]));
}

#[test]
fn a_page_of_255_packets_fills_the_lists() {
    let many = page(0, 255 * 960, 2, &[SOUND; 255]);
    let more = page(0, 510 * 960, 3, &[SOUND; 255]);
    let (bytes, size) = ([many.clone(), more].concat(), many.len() as u64);
    let told = fed(&mut full(0), &bytes, lists(2 * LIST - 1));
    assert_eq!(told, (0, [size, 1, 255, FULL]));
    let told = fed(&mut full(0), &bytes, lists(2 * LIST));
    assert_eq!(told, (0, [2 * size, 2, 510, FULL]));
}

#[test]
fn a_refused_page_ends_it_and_the_pages_before_it_count() {
    let pages = audio(3, 2);
    let size = pages[0].len() as u64;
    for wrong in 0..3 {
        let mut bytes = pages.concat();
        bytes[wrong * pages[0].len() + CHECKSUM.start] ^= 1;
        let mut feeder = full(0);
        let count = wrong as u64;
        let told = fed(&mut feeder, &bytes, WIDE);
        assert_eq!(told, (4, [count * size, count, count, REFUSED]));
        assert_eq!(feeder.reader().next, 2 + wrong as u32);
        assert_eq!(feeder.totals()[0], 960 * count);
        let rest = pages[wrong..].concat();
        let told = fed(&mut feeder, &rest, WIDE);
        assert_eq!(told, (0, [(3 - count) * size, 3 - count, 3 - count, CUT]));
    }
}

#[test]
fn after_the_last_page_a_whole_one_is_refused_and_a_cut_one_is_not() {
    let end = page(LAST, 960, 2, &[SOUND]);
    let size = end.len();
    let bytes = [end, page(0, 1_920, 3, &[SOUND])].concat();
    let taken = size as u64;
    let mut feeder = full(0);
    let told = fed(&mut feeder, &bytes, WIDE);
    assert_eq!(told, (2, [taken, 1, 1, REFUSED]));
    let told = fed(&mut full(0), &bytes[..bytes.len() - 1], WIDE);
    assert_eq!(told, (0, [taken, 1, 1, CUT]));
    assert_eq!(fed(&mut feeder, &[0; 26], WIDE), (0, [0, 0, 0, CUT]));
    assert_eq!(fed(&mut feeder, &[0; 27], WIDE), (2, [0, 0, 0, REFUSED]));
}

#[test]
fn bytes_that_begin_no_page_are_refused_where_there_are_27() {
    let one = &audio(1, 2)[0];
    let taken = one.len() as u64;
    for (count, answer, why) in [(26, 0, CUT), (27, 3, REFUSED), (500, 3, REFUSED)] {
        let bytes = [&one[..], &vec![b'O'; count]].concat();
        let told = fed(&mut full(0), &bytes, WIDE);
        assert_eq!(told, (answer, [taken, 1, 1, why]), "{count} bytes");
    }
    let mut other = one.clone();
    other[4] = 1;
    ogg::seal(&mut other);
    let bytes = [&other[..], one].concat();
    assert_eq!(fed(&mut full(0), &bytes, WIDE), (3, [0, 0, 0, REFUSED]));
}

#[test]
fn a_short_carry_buffer_refuses_the_first_page_that_is_fed() {
    let bytes = audio(2, 2).concat();
    let told = fed(&mut full(0), &bytes, SHORT);
    assert_eq!(told, (1, [0, 0, 0, REFUSED]));
    let told = fed(&mut full(0), &bytes[..HEAD], SHORT);
    assert_eq!(told, (0, [0, 0, 0, CUT]));
    assert_eq!(fed(&mut full(0), &[0; 27], SHORT), (1, [0, 0, 0, REFUSED]));
}

#[test]
fn numbers_that_feeding_would_not_write_stay_until_a_page_is_accepted() {
    let pages = audio(2, 2);
    let mut feeder = full(0);
    let mut odd = feeder.numbers();
    odd[5] |= 1 << 40;
    odd[7] |= 1 << 9;
    odd[TOTALS.end..].copy_from_slice(&[7, 8]);
    feeder.set(odd);
    let mut damaged = pages[0].clone();
    damaged[CHECKSUM.start] ^= 1;
    let nothing: [(&[u8], Room, u32, u64); 4] = [
        (&pages[0], lists(LIST - 1), 0, FULL),
        (&pages[0][1..], ENOUGH, 3, REFUSED),
        (&damaged, ENOUGH, 4, REFUSED),
        (&pages[0][..20], ENOUGH, 0, CUT),
    ];
    for (bytes, room, answer, why) in nothing {
        assert_eq!(fed(&mut feeder, bytes, room), (answer, [0, 0, 0, why]));
        assert_eq!(feeder.numbers(), odd);
    }
    let bytes = [&pages[0][..], &damaged].concat();
    let told = fed(&mut feeder, &bytes, WIDE);
    assert_eq!(told, (4, [pages[0].len() as u64, 1, 1, REFUSED]));
    let mut plain = full(0);
    assert!(feed(&mut plain, &pages[0]).is_ok());
    assert_eq!(feeder.numbers(), plain.numbers());
}

#[test]
fn the_carry_buffer_is_left_as_page_by_page() {
    let start = page(0, NO_GRANULE, 2, &[&[0x08; 255]]);
    let end = |granule| page(CONTINUED, granule, 3, &[&[1, 2, 3], SOUND, &[4; 255]]);
    let late = [start.clone(), end(1_919)].concat();
    let mut feeder = full(0);
    let told = fed(&mut feeder, &late, WIDE);
    assert_eq!(told, (17, [start.len() as u64, 1, 0, REFUSED]));
    assert_eq!(feeder.reader().unfinished, Unfinished::Held(255));
    assert_eq!(
        feeder.carry()[..258],
        [&[0x08; 255][..], &[1, 2, 3]].concat()
    );
    let right = [start, end(1_920)].concat();
    let mut feeder = full(0);
    let told = fed(&mut feeder, &right, WIDE);
    assert_eq!(told, (0, [right.len() as u64, 2, 2, CUT]));
    assert_eq!(feeder.carry()[..258], [&[4; 255][..], &[1, 2, 3]].concat());
}
