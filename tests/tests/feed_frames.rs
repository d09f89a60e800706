//! Feedings worked out by hand: the number of frames that each packet is listed with, and the list
//! that is lent for it.

use embulgri_tests::by_hand::{feed, full, of_streams, opened, page, SOUND};
use embulgri_tests::feed_calls::{Feeder, Room, ENOUGH};
use embulgri_tests::feeding::{CONTINUED, LAST, LIST, LISTS, NO_GRANULE};

/// Packets of 960 samples in 1, 2, 4 and 8 frames.
const ONE: &[u8] = &[0xf8, 1];
const TWO: &[u8] = &[0xf1];
const FOUR: &[u8] = &[0xeb, 0x44, 0x01, 0xaa];
const EIGHT: &[u8] = &[0xe3, 0x88, 0, 1, 0, 0, 2, 0, 0, 1, 2, 3];

/// The frames of the packets that a page lists, or the refusal's number.
fn frames(feeder: &mut Feeder, page: &[u8]) -> Result<Vec<u64>, u32> {
    let listed = feed(feeder, page)?;
    Ok(listed.into_iter().map(|(.., frames)| frames).collect())
}

#[test]
fn each_packet_is_listed_with_its_own_frames() {
    let packets = [ONE, TWO, TWO, EIGHT, FOUR, ONE];
    let listed = frames(&mut full(312), &page(0, 5_760, 2, &packets));
    assert_eq!(listed, Ok(vec![1, 2, 2, 8, 4, 1]));
    let longest: [&[u8]; 6] = [
        &[0x1b, 2],
        &[0x13, 3],
        &[0x0b, 6],
        &[0x03, 12],
        &[0x8b, 24],
        &[0x83, 48],
    ];
    let listed = frames(&mut full(0), &page(0, 34_560, 2, &longest));
    assert_eq!(listed, Ok(vec![2, 3, 6, 12, 24, 48]));
}

#[test]
fn frames_are_told_where_samples_are_skipped_or_trimmed_too() {
    let mut feeder = full(1_000);
    let first = feed(&mut feeder, &page(0, 1_920, 2, &[EIGHT, TWO]));
    assert_eq!(first, Ok(vec![(960, 960, 0, 8), (1_920, 960, 920, 2)]));
    let last = feed(&mut feeder, &page(LAST, 1_930, 3, &[FOUR, EIGHT]));
    assert_eq!(last, Ok(vec![(2_880, 960, 10, 4), (3_840, 960, 0, 8)]));
}

#[test]
fn a_packet_over_pages_is_listed_with_its_frames_where_it_ends() {
    let mut packet = vec![0xeb, 0x04];
    packet.resize(2 + 4 * 150, 0xaa);
    let pages = [
        page(0, 960, 2, &[TWO, &packet[..255]]),
        page(CONTINUED, NO_GRANULE, 3, &[&packet[255..510]]),
        page(CONTINUED, 2_880, 4, &[&packet[510..], ONE]),
    ];
    let mut feeder = full(0);
    let listed = pages.map(|page| frames(&mut feeder, &page));
    assert_eq!(listed, [Ok(vec![2]), Ok(vec![]), Ok(vec![4, 1])]);
}

#[test]
fn frames_are_those_of_the_first_of_several_opus_packets() {
    let one_then_two: &[u8] = &[0xf8, 0x00, 0xf1];
    let two_then_one: &[u8] = &[0xf1, 0x00, 0xf8];
    let eight_then_four: &[u8] = &[
        0xe3, 0x48, 0x02, 0x01, 1, 2, 3, 4, 5, 6, 7, 8, 0, 0, 0xeb, 4,
    ];
    for feeder in [full(0), opened(0)] {
        let mut feeder = of_streams(feeder, 2);
        let packets = [one_then_two, two_then_one, eight_then_four];
        let listed = frames(&mut feeder, &page(0, 2_880, 2, &packets));
        assert_eq!(listed, Ok(vec![1, 2, 8]));
    }
    let three: &[u8] = &[0xeb, 0x04, 0x00, 0xf8, 0x01, 0xaa, 0xf1];
    let listed = frames(&mut of_streams(full(0), 3), &page(0, 960, 2, &[three]));
    assert_eq!(listed, Ok(vec![4]));
}

#[test]
fn a_reader_opened_part_way_lists_the_same_frames_but_of_a_packet_begun_before() {
    let pages = [
        page(0, 960, 2, &[FOUR, &[0xf8; 255]]),
        page(CONTINUED, 3_840, 3, &[&[1], TWO, EIGHT]),
        page(0, 5_760, 4, &[EIGHT, ONE]),
    ];
    let mut feeder = full(0);
    let listed = pages.each_ref().map(|page| frames(&mut feeder, page));
    assert_eq!(listed, [Ok(vec![4]), Ok(vec![1, 2, 8]), Ok(vec![8, 1])]);
    let mut feeder = opened(0);
    let listed = [&pages[1], &pages[2]].map(|page| frames(&mut feeder, page));
    assert_eq!(listed, [Ok(vec![2, 8]), Ok(vec![8, 1])]);
}

#[test]
fn a_page_of_255_packets_fills_255_places_and_the_next_of_one_the_first_alone() {
    let packets: Vec<&[u8]> = (0..LIST)
        .map(|place| [ONE, TWO, EIGHT][place % 3])
        .collect();
    let due: Vec<u64> = (0..LIST).map(|place| [1, 2, 8][place % 3]).collect();
    let mut feeder = full(0);
    let full_page = page(0, 255 * 960, 2, &packets);
    assert_eq!(frames(&mut feeder, &full_page), Ok(due));
    for (sequence, granule, packet, count) in [(3, 256, TWO, 2), (4, 257, FOUR, 4)] {
        let next = page(0, granule * 960, sequence, &[packet]);
        assert_eq!(frames(&mut feeder, &next), Ok(vec![count]));
    }
}

#[test]
fn any_one_list_that_is_too_short_is_refused_by_1() {
    let right = page(0, 960, 2, &[TWO]);
    let wrong = page(0, 960, 9, &[SOUND]);
    for list in 0..LISTS {
        let mut feeder = full(0);
        for places in [0, 1, 253, 254] {
            let mut room = ENOUGH;
            room.lists[list] = places;
            for page in [&right[..], &wrong, &[]] {
                let told = feeder.feed(page, room, format_args!("{places} in list {list}"));
                assert_eq!(told.err(), Some(1), "{places} in list {list}");
            }
        }
        assert_eq!(frames(&mut feeder, &right), Ok(vec![2]));
    }
    let more = Room {
        lists: [256, 257, 258, 259],
        ..ENOUGH
    };
    assert!(full(0).feed(&right, more, "more places").is_ok());
}
