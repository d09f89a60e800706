//! Feedings worked out by hand: the listing and the positions of the rules' own examples, and
//! readers opened part way.

use embulgri_tests::by_hand::{feed, full, opened, page, SOUND};
use embulgri_tests::feed_calls::ENOUGH;
use embulgri_tests::feeding::{CONTINUED, LAST, MOST_GRANULE, NO_GRANULE};
use embulgri_tests::ogg::{self, Page};
use embulgri_tests::reader::{Phase, Position, Unfinished};

#[test]
fn the_listing_of_three_packets_after_a_pre_skip() {
    let listed = feed(&mut full(312), &page(0, 2_880, 2, &[SOUND; 3]));
    assert_eq!(
        listed,
        Ok(vec![
            (960, 960, 648, 1),
            (1_920, 960, 960, 1),
            (2_880, 960, 960, 1)
        ])
    );
}

#[test]
fn the_positions_of_the_sixteen_cases() {
    let three = |last, granule| feed(&mut full(312), &page(last, granule, 2, &[SOUND; 3]));
    assert_eq!(three(0, 2_879), Err(17));
    let cut = vec![
        (960, 960, 648, 1),
        (1_920, 960, 960, 1),
        (2_880, 960, 959, 1),
    ];
    assert_eq!(three(LAST, 2_879), Ok(cut));
    assert_eq!(three(LAST, 311), Err(18));
    let mut feeder = full(312);
    let first = feed(&mut feeder, &page(0, 10_000, 2, &[SOUND; 3]));
    let listed = vec![
        (8_080, 960, 648, 1),
        (9_040, 960, 960, 1),
        (10_000, 960, 960, 1),
    ];
    assert_eq!(first, Ok(listed));
    let last = feed(&mut feeder, &page(LAST, 10_100, 3, &[SOUND]));
    assert_eq!(last, Ok(vec![(10_960, 960, 100, 1)]));
    assert_eq!(feed(&mut feeder, &[]), Err(2));
}

#[test]
fn a_large_initial_position_does_not_count_for_the_pre_skip() {
    let listed = feed(&mut full(5_000), &page(0, 10_000, 2, &[SOUND; 3]));
    assert_eq!(
        listed,
        Ok(vec![
            (8_080, 960, 0, 1),
            (9_040, 960, 0, 1),
            (10_000, 960, 0, 1)
        ])
    );
}

#[test]
fn samples_before_the_end_are_trimmed_and_not_skipped() {
    let told = full(65_535).feed(&page(LAST, 65_535, 2, &[SOUND]), ENOUGH, "whole");
    assert_eq!(told.map(|l| l.numbers()).ok(), Some([1, 960, 0, 960, 0, 0]));
    let mut feeder = full(1_000);
    assert_eq!(
        feed(&mut feeder, &page(0, 960, 2, &[SOUND])),
        Ok(vec![(960, 960, 0, 1)])
    );
    let told = feeder.feed(&page(LAST, 970, 3, &[SOUND]), ENOUGH, "cut");
    assert_eq!(
        told.map(|l| l.numbers()).ok(),
        Some([1, 960, 0, 10, 950, 0])
    );
}

#[test]
fn stamps_of_the_last_page_can_pass_the_largest_granule() {
    let mut feeder = full(0);
    let first = feed(&mut feeder, &page(0, MOST_GRANULE - 1, 2, &[SOUND]));
    assert_eq!(first, Ok(vec![(MOST_GRANULE - 1, 960, 960, 1)]));
    assert_eq!(
        feed(&mut feeder, &page(0, MOST_GRANULE, 3, &[SOUND])),
        Err(17)
    );
    assert_eq!(
        feed(&mut feeder, &page(0, MOST_GRANULE + 1, 3, &[SOUND])),
        Err(11)
    );
    let last = feed(&mut feeder, &page(LAST, MOST_GRANULE, 3, &[SOUND; 2]));
    let end = MOST_GRANULE + 959;
    assert_eq!(last, Ok(vec![(end, 960, 1, 1), (end + 960, 960, 0, 1)]));
}

#[test]
fn a_hole_is_told_and_the_stamps_run_back_from_the_granule() {
    let mut feeder = full(0);
    assert_eq!(
        feed(&mut feeder, &page(0, 960, 2, &[SOUND])),
        Ok(vec![(960, 960, 960, 1)])
    );
    let told = feeder.feed(&page(0, 5_000, 3, &[SOUND]), ENOUGH, "a hole");
    assert_eq!(
        told.map(|l| l.numbers()).ok(),
        Some([1, 960, 960, 0, 0, 3_080])
    );
}

#[test]
fn a_dropped_packet_gives_a_position_and_nothing_else() {
    let mut feeder = opened(312);
    assert_eq!(
        feed(&mut feeder, &page(CONTINUED, 50, 9, &[&[1, 2]])),
        Ok(vec![])
    );
    assert_eq!(feeder.reader().position, Position::At(50));
    let last = feed(&mut feeder, &page(LAST, 60, 10, &[SOUND]));
    assert_eq!(last, Ok(vec![(1_010, 960, 10, 1)]));
}

#[test]
fn a_reader_opened_on_a_continued_page_of_no_values_drops_a_packet() {
    let mut feeder = opened(0);
    assert_eq!(
        feed(&mut feeder, &page(CONTINUED, NO_GRANULE, 5, &[])),
        Ok(vec![])
    );
    assert_eq!(feeder.reader().unfinished, Unfinished::Dropped);
    assert_eq!(feed(&mut feeder, &page(0, 960, 6, &[SOUND])), Err(8));
    let told = feed(&mut feeder, &page(CONTINUED, 960, 6, &[&[9; 300], SOUND]));
    assert_eq!(told, Ok(vec![(960, 960, 960, 1)]));
}

#[test]
fn a_reader_opened_part_way_refuses_an_end_with_nothing_to_stand_on() {
    for flags in [LAST, LAST | CONTINUED] {
        let mut feeder = opened(0);
        assert_eq!(feed(&mut feeder, &page(flags, 960, 5, &[SOUND])), Err(19));
        assert_eq!(feeder.reader().phase, Phase::Opened);
        assert_eq!(
            feed(&mut feeder, &page(0, 960, 8, &[SOUND])).map(|l| l.len()),
            Ok(1)
        );
    }
    let nothing = page(LAST, NO_GRANULE, 5, &[&[0x08; 255]]);
    assert_eq!(feed(&mut opened(0), &nothing), Ok(vec![]));
}

#[test]
fn the_sequence_goes_on_after_its_largest_number() {
    let mut feeder = opened(0);
    for sequence in [u32::MAX - 1, u32::MAX, 0, 1] {
        let page = page(0, MOST_GRANULE, sequence, &[]);
        assert_eq!(feed(&mut feeder, &page), Err(11));
        let right = Page {
            granule: NO_GRANULE,
            ..ogg::read(&page).expect("a page")
        };
        assert_eq!(feed(&mut feeder, &ogg::encode(&right)), Ok(vec![]));
    }
    assert_eq!(feed(&mut feeder, &page(0, NO_GRANULE, 1, &[])), Err(6));
}

#[test]
fn pages_of_no_values_are_accepted_among_audio_only() {
    let mut feeder = full(0);
    assert_eq!(feed(&mut feeder, &page(0, NO_GRANULE, 2, &[])), Ok(vec![]));
    assert_eq!(
        feed(&mut feeder, &page(0, NO_GRANULE, 3, &[&[0x08; 510]])),
        Ok(vec![])
    );
    assert_eq!(feed(&mut feeder, &page(0, NO_GRANULE, 4, &[])), Err(8));
    assert_eq!(
        feed(&mut feeder, &page(CONTINUED, NO_GRANULE, 4, &[])),
        Ok(vec![])
    );
    assert_eq!(feeder.reader().unfinished, Unfinished::Held(510));
    let end = page(CONTINUED | LAST, 960, 5, &[&[]]);
    assert_eq!(feed(&mut feeder, &end), Ok(vec![(960, 960, 960, 1)]));
}

#[test]
fn an_end_inside_a_packet_counts_for_nothing() {
    let mut feeder = full(0);
    let end = page(LAST, 960, 2, &[SOUND, &[0x08; 255]]);
    assert_eq!(feed(&mut feeder, &end), Ok(vec![(960, 960, 960, 1)]));
    assert_eq!(feeder.reader().unfinished, Unfinished::Held(255));
    assert_eq!(
        feed(&mut feeder, &page(CONTINUED, 1_920, 3, &[&[]])),
        Err(2)
    );
}
