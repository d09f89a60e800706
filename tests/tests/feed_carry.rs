//! Feedings worked out by hand: packets up to the longest that is taken, and what the carry buffer
//! holds at the end.

use embulgri_tests::by_hand::{feed, full, head_of, opened, page, NO_TAGS, SOUND};
use embulgri_tests::feed_calls::Feeder;
use embulgri_tests::feeding::{CONTINUED, FIRST, MOST_GRANULE, NO_GRANULE};
use embulgri_tests::head;
use embulgri_tests::random::Random;
use embulgri_tests::recording_inputs::of_length;
use embulgri_tests::tags::LONGEST;

/// Feeds a packet of so many bytes to a reader, so many of them on the first page, and gives the
/// last answer.
fn feed_packet(length: usize, on_first: usize) -> u32 {
    let mut feeder = full(0);
    let packet = of_length(&mut Random::of_run(97), 1, length).bytes;
    assert_eq!(packet.len(), length);
    let (start, end) = packet.split_at(on_first);
    let mut flags = 0;
    let mut sequence = 2;
    if on_first > 0 {
        let told = feed(&mut feeder, &page(0, NO_GRANULE, sequence, &[start]));
        assert_eq!(told, Ok(vec![]));
        (flags, sequence) = (CONTINUED, 3);
    }
    let told = feed(&mut feeder, &page(flags, MOST_GRANULE, sequence, &[end]));
    told.err().unwrap_or(0)
}

#[test]
fn packets_of_61_440_bytes_are_taken_and_of_one_more_are_not() {
    for on_first in [0, 255, 30_600, 60_945, 61_200] {
        assert_eq!(feed_packet(LONGEST - 1, on_first), 0, "{on_first}");
        assert_eq!(feed_packet(LONGEST, on_first), 0, "{on_first}");
        assert_eq!(feed_packet(LONGEST + 1, on_first), 9, "{on_first}");
    }
    let unfinished = |length| page(0, NO_GRANULE, 2, &[&vec![0x08; length]]);
    assert_eq!(feed(&mut full(0), &unfinished(61_200)), Ok(vec![]));
    assert_eq!(feed(&mut full(0), &unfinished(61_455)), Err(9));
}

#[test]
fn a_comment_packet_of_61_440_bytes_is_taken_and_of_one_more_is_not() {
    for (length, answer) in [(LONGEST, 0), (LONGEST + 1, 9)] {
        let mut comments = NO_TAGS.to_vec();
        comments.resize(length, 0xff);
        let (start, end) = comments.split_at(30_600);
        let mut feeder = Feeder::started();
        let head = head::encode(&head_of(0));
        let pages = [
            page(FIRST, 0, 0, &[&head]),
            page(0, NO_GRANULE, 1, &[start]),
            page(CONTINUED, 0, 2, &[end]),
        ];
        let told = pages.map(|page| feed(&mut feeder, &page).err().unwrap_or(0));
        assert_eq!(told, [0, 0, answer], "{length}");
    }
}

#[test]
fn held_bytes_that_the_caller_changed_are_what_the_packet_is_read_from() {
    let mut feeder = full(0);
    assert_eq!(
        feed(&mut feeder, &page(0, NO_GRANULE, 2, &[&[0x08; 255]])),
        Ok(vec![])
    );
    let end = page(CONTINUED, 5_760, 3, &[&[0x11]]);
    let mut illegal = feeder.clone();
    illegal.put_in_carry(0, &[0x0b, 0x00]);
    assert_eq!(feed(&mut illegal, &end), Err(15));
    feeder.put_in_carry(0, &[0x18]);
    assert_eq!(feed(&mut feeder, &end), Ok(vec![(5_760, 2_880, 2_880, 1)]));
}

/// A reader that holds the 255 bytes of a packet of 960 samples so far.
fn holding() -> Feeder {
    let mut feeder = full(0);
    let start = page(0, NO_GRANULE, 2, &[&[0x08; 255]]);
    assert_eq!(feed(&mut feeder, &start), Ok(vec![]));
    feeder
}

/// Holds the start of the carry buffer to these bytes.
fn assert_carry(feeder: &Feeder, parts: &[&[u8]]) {
    let expected = parts.concat();
    assert_eq!(feeder.carry()[..expected.len()], expected);
}

#[test]
fn comments_lie_in_the_carry_buffer_and_no_other_whole_packet_does() {
    let mut feeder = full(0);
    let after = feeder.carry()[NO_TAGS.len()..].to_vec();
    assert_carry(&feeder, &[NO_TAGS]);
    assert_eq!(
        feed(&mut feeder, &page(0, 960, 2, &[SOUND])),
        Ok(vec![(960, 960, 960, 1)])
    );
    assert_carry(&feeder, &[NO_TAGS, &after]);
}

#[test]
fn wrong_comments_are_in_the_carry_buffer_and_a_wrong_header_is_not() {
    let mut feeder = Feeder::started();
    let before = feeder.carry().to_vec();
    assert_eq!(
        feed(&mut feeder, &page(FIRST, 0, 0, &[b"OpusHead"])),
        Err(12)
    );
    let head = head::encode(&head_of(0));
    assert_eq!(feed(&mut feeder, &page(FIRST, 0, 0, &[&head])), Ok(vec![]));
    assert_carry(&feeder, &[&before]);
    assert_eq!(feed(&mut feeder, &page(0, 0, 1, &[b"OpusTags"])), Err(14));
    assert_carry(&feeder, &[b"OpusTags", &before[8..]]);
}

#[test]
fn a_page_that_ends_one_packet_and_begins_another_writes_both() {
    let mut feeder = holding();
    let after = feeder.carry()[258..].to_vec();
    let next = page(CONTINUED, 960, 3, &[&[1, 2, 3], &[4; 255]]);
    assert_eq!(feed(&mut feeder, &next), Ok(vec![(960, 960, 960, 1)]));
    assert_carry(&feeder, &[&[4; 255], &[1, 2, 3], &after]);
}

#[test]
fn a_late_refusal_leaves_the_end_of_the_held_packet_and_not_the_next_start() {
    let refused: [(u64, &[u8], u32); 3] = [
        (960, &[0x03, 0], 15),
        (959, SOUND, 17),
        (1 << 63, SOUND, 11),
    ];
    for (granule, packet, number) in refused {
        let mut feeder = holding();
        let before = feeder.carry().to_vec();
        let wrong = page(CONTINUED, granule, 3, &[&[1, 2, 3], packet, &[4; 255]]);
        assert_eq!(feed(&mut feeder, &wrong), Err(number));
        let appended: &[u8] = if number == 11 {
            &before[255..258]
        } else {
            &[1, 2, 3]
        };
        assert_carry(&feeder, &[&[0x08; 255], appended, &before[258..]]);
        let right = page(CONTINUED, 960, 3, &[&[7]]);
        assert_eq!(feed(&mut feeder, &right), Ok(vec![(960, 960, 960, 1)]));
    }
}

#[test]
fn a_dropped_packet_is_never_in_the_carry_buffer() {
    let mut feeder = opened(0);
    let before = feeder.carry().to_vec();
    for sequence in 4..300 {
        let piece = page(CONTINUED, NO_GRANULE, sequence, &[&[9; 510]]);
        assert_eq!(feed(&mut feeder, &piece), Ok(vec![]));
    }
    let wrong = page(CONTINUED, 960, 300, &[&[9; 5], &[]]);
    assert_eq!(feed(&mut feeder, &wrong), Err(15));
    let end = page(CONTINUED, 960, 300, &[&[9; 5], SOUND]);
    assert_eq!(feed(&mut feeder, &end), Ok(vec![(960, 960, 960, 1)]));
    assert_carry(&feeder, &[&before]);
}
