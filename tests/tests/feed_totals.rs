//! The totals of a reader worked out by hand: kept, skipped, trimmed and hole. That they are right
//! after every feeding of the random runs too is held in `feed_calls`.

use embulgri_tests::by_hand::{feed, full, head_of, of_streams, opened, page, NO_TAGS, SOUND};
use embulgri_tests::feed_calls::{Feeder, Room, ENOUGH};
use embulgri_tests::feeding::{CONTINUED, FIRST, LAST, NO_GRANULE, REFUSALS};
use embulgri_tests::head;
use embulgri_tests::ogg::{self, CHECKSUM};
use embulgri_tests::reader::{Totals, TOTALS};

/// The reader with other totals, and with numbers in the places that nothing looks at.
fn with_totals(mut feeder: Feeder, totals: Totals) -> Feeder {
    let mut numbers = feeder.numbers();
    numbers[TOTALS].copy_from_slice(&totals);
    numbers[TOTALS.end..].fill(77);
    feeder.set(numbers);
    feeder
}

/// The totals after these pages, each accepted.
fn totals_after(mut feeder: Feeder, pages: &[Vec<u8>]) -> Totals {
    for page in pages {
        assert!(feed(&mut feeder, page).is_ok());
    }
    feeder.totals()
}

/// Holds the totals after each of these pages, all accepted, to those beside it.
fn check_each(feeder: &mut Feeder, pages: &[(Vec<u8>, Totals)]) {
    for (page, totals) in pages {
        assert!(feed(feeder, page).is_ok());
        assert_eq!(feeder.totals(), *totals);
    }
}

#[test]
fn totals_of_a_stream_are_those_of_its_listing() {
    let mut feeder = full(312);
    assert_eq!(feeder.totals(), [0; 4]);
    let pages = [
        (page(0, 2_880, 2, &[SOUND; 3]), [2_568, 312, 0, 0]),
        (page(0, NO_GRANULE, 3, &[]), [2_568, 312, 0, 0]),
        (page(0, 4_000, 4, &[SOUND]), [3_528, 312, 0, 160]),
        (page(LAST, 4_100, 5, &[SOUND; 2]), [3_628, 312, 1_820, 160]),
    ];
    check_each(&mut feeder, &pages);
    assert_eq!(feed(&mut feeder, &[]), Err(2));
    assert_eq!(feeder.totals(), [3_628, 312, 1_820, 160]);
}

#[test]
fn of_a_stream_of_one_page_what_is_not_trimmed_is_skipped_first() {
    let only = |granule| totals_after(full(312), &[page(LAST, granule, 2, &[SOUND; 3])]);
    assert_eq!(only(312), [0, 312, 2_568, 0]);
    assert_eq!(only(313), [1, 312, 2_567, 0]);
    assert_eq!(only(2_880), [2_568, 312, 0, 0]);
    assert_eq!(only(9_000), [2_568, 312, 0, 0]);
    let long = |granule| totals_after(full(961), &[page(LAST, granule, 2, &[SOUND])]);
    assert_eq!(long(961), [0, 960, 0, 0]);
}

#[test]
fn trimming_wins_over_skipping() {
    let two = |last| {
        let pages = [page(0, 960, 2, &[SOUND]), page(LAST, last, 3, &[SOUND])];
        totals_after(full(1_000), &pages)
    };
    assert_eq!(two(960), [0, 960, 960, 0]);
    assert_eq!(two(970), [0, 970, 950, 0]);
    assert_eq!(two(1_000), [0, 1_000, 920, 0]);
    assert_eq!(two(1_001), [1, 1_000, 919, 0]);
}

#[test]
fn holes_are_counted_from_the_second_granule_position_on() {
    let pages = [
        page(0, 5_000, 2, &[SOUND]),
        page(0, 5_961, 3, &[SOUND]),
        page(0, 8_000, 4, &[SOUND]),
        page(LAST, 9_000, 5, &[SOUND]),
    ];
    let after = |count| totals_after(full(0), &pages[..count]);
    assert_eq!(after(1), [960, 0, 0, 0]);
    assert_eq!(after(2), [1_920, 0, 0, 1]);
    assert_eq!(after(3), [2_880, 0, 0, 1_080]);
    assert_eq!(after(4), [3_840, 0, 0, 1_120]);
}

#[test]
fn a_reader_opened_part_way_counts_what_it_lists_and_skips_nothing() {
    let mut feeder = opened(312);
    assert_eq!(feeder.totals(), [0; 4]);
    let pages = [
        (page(CONTINUED, NO_GRANULE, 9, &[&[9; 255]]), [0; 4]),
        (page(CONTINUED, 50_000, 10, &[&[9], SOUND]), [960, 0, 0, 0]),
        (page(0, 51_000, 11, &[SOUND]), [1_920, 0, 0, 40]),
        (page(LAST, 51_010, 12, &[SOUND; 2]), [1_930, 0, 1_910, 40]),
    ];
    check_each(&mut feeder, &pages);
}

#[test]
fn after_a_dropped_packet_alone_the_next_page_can_have_a_hole() {
    let pages = [
        page(CONTINUED, 50, 9, &[&[1, 2]]),
        page(0, 1_020, 10, &[SOUND]),
    ];
    assert_eq!(totals_after(opened(312), &pages[..1]), [0; 4]);
    assert_eq!(totals_after(opened(312), &pages), [960, 0, 0, 10]);
}

#[test]
fn a_total_goes_on_from_any_number_and_after_the_largest_at_0() {
    let most = u64::MAX;
    let pages = [page(0, 960, 2, &[SOUND]), page(0, 2_000, 3, &[SOUND])];
    let from = |totals, pages| totals_after(with_totals(full(300), totals), pages);
    assert_eq!(from([most; 4], &pages[..1]), [659, 299, most, most]);
    assert_eq!(from([most; 4], &pages), [1_619, 299, most, 79]);
    let under = [most - 660, most - 300, 1 << 63, 5];
    assert_eq!(from(under, &pages[..1]), [most, most, 1 << 63, 5]);
    let last = [page(LAST, 959, 2, &[SOUND])];
    assert_eq!(from([0, 1, most, 2], &last), [659, 301, 0, 2]);
    let nothing = [page(0, NO_GRANULE, 2, &[])];
    assert_eq!(from([most, 0, 1, 2], &nothing), [most, 0, 1, 2]);
}

#[test]
fn header_pages_keep_the_totals_and_starting_and_opening_do_not() {
    let totals = [u64::MAX, 1, 2, 1 << 40];
    let mut feeder = with_totals(Feeder::started(), totals);
    let first = page(FIRST, 0, 0, &[&head::encode(&head_of(312))]);
    for page in [first, page(0, 0, 1, &[NO_TAGS])] {
        assert_eq!(feed(&mut feeder, &page), Ok(vec![]));
        assert_eq!(feeder.totals(), totals);
        assert_eq!(feeder.numbers()[TOTALS.end..], [0, 0]);
    }
    let mut other = feeder.clone();
    other.start();
    assert_eq!(other.totals(), [0; 4]);
    assert_eq!(feeder.open(&head_of(312), "again"), 0);
    assert_eq!(feeder.totals(), [0; 4]);
}

/// A refusal's number, a reader, and a page that it refuses by that number.
type Refused = (u32, Feeder, Vec<u8>);

/// Refusals of a page's bytes and of the call. For 1 the page is right.
fn of_any_page() -> [Refused; 5] {
    let right = page(0, 960, 2, &[SOUND]);
    let mut damaged = right.clone();
    damaged[CHECKSUM.start] ^= 1;
    let mut other = ogg::read(&right).expect("a page");
    other.serial ^= 1;
    let mut ended = full(312);
    let end = page(LAST, NO_GRANULE, 2, &[]);
    assert_eq!(feed(&mut ended, &end), Ok(vec![]));
    [
        (1, full(312), right.clone()),
        (2, ended, right.clone()),
        (3, full(312), right[1..].to_vec()),
        (4, full(312), damaged),
        (5, full(312), ogg::encode(&other)),
    ]
}

fn of_header_pages() -> [Refused; 4] {
    let right = head::encode(&head_of(312));
    let mut wrong = right.clone();
    wrong[head::CHANNELS] = 3;
    let first = |packets: &[&[u8]]| page(FIRST, 0, 0, packets);
    let mut at_comments = Feeder::started();
    assert_eq!(feed(&mut at_comments, &first(&[&right])), Ok(vec![]));
    [
        (10, Feeder::started(), first(&[&right, &right])),
        (12, Feeder::started(), first(&[b"OpusHead"])),
        (13, Feeder::started(), first(&[&wrong])),
        (14, at_comments, page(0, 0, 1, &[b"OpusTags"])),
    ]
}

fn of_audio_pages() -> [Refused; 10] {
    let two_streams = of_streams(full(312), 2);
    let audio = |flags, granule, sequence, packet: &[u8]| {
        let bytes = page(flags, granule, sequence, &[packet]);
        (full(312), bytes)
    };
    [
        (6, audio(0, 960, 3, SOUND)),
        (7, audio(FIRST, 960, 2, SOUND)),
        (8, audio(CONTINUED, 960, 2, SOUND)),
        (9, audio(0, 960, 2, &[0x08; 61_441])),
        (11, audio(0, NO_GRANULE, 2, SOUND)),
        (15, audio(0, 960, 2, &[0x03, 0])),
        (16, (two_streams, page(0, 960, 2, &[&[0x08, 0, 0]]))),
        (17, audio(0, 959, 2, SOUND)),
        (18, audio(LAST, 311, 2, SOUND)),
        (19, (opened(312), page(LAST, 960, 2, &[SOUND]))),
    ]
    .map(|(number, (feeder, page))| (number, feeder, page))
}

#[test]
fn no_refusal_moves_a_total() {
    let mut cases = [&of_any_page()[..], &of_header_pages(), &of_audio_pages()].concat();
    cases.sort_by_key(|&(number, ..)| number);
    let numbers: Vec<u32> = cases.iter().map(|&(number, ..)| number).collect();
    assert_eq!(numbers, REFUSALS);
    for (number, feeder, page) in cases {
        let short = Room { carry: 0, ..ENOUGH };
        let room = if number == 1 { short } else { ENOUGH };
        for totals in [feeder.totals(), [1, 22, 333, 4_444], [u64::MAX; 4]] {
            let mut feeder = with_totals(feeder.clone(), totals);
            let before = feeder.numbers();
            assert_eq!(feeder.feed(&page, room, number).err(), Some(number));
            assert_eq!(feeder.totals(), totals, "refused by {number}");
            assert_eq!(feeder.numbers(), before, "refused by {number}");
        }
    }
}
