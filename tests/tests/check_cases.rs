//! Findings worked out by hand, of streams of a few pages.

use embulgri_tests::by_hand::{page, SOUND};
use embulgri_tests::check_by_hand::{checked, head_page, stream, Found};
use embulgri_tests::feeding::{CONTINUED, LAST, NO_GRANULE};

/// A packet of 480 samples.
const SHORT: &[u8] = &[0x00];
/// What is on a page of a packet that goes on.
const BEGUN: &[u8] = &[0; 255];

#[test]
fn a_stream_with_an_end_and_all_its_packets_has_no_findings() {
    let bytes = stream(&[
        page(0, 960, 2, &[SOUND]),
        page(0, 1_920, 3, &[SOUND]),
        page(LAST, 2_880, 4, &[SOUND]),
    ]);
    assert_eq!(checked(&bytes), Ok(vec![]));
    let nothing = page(LAST, NO_GRANULE, 2, &[]);
    assert_eq!(checked(&stream(&[nothing])), Ok(vec![]));
}

#[test]
fn an_unfinished_packet_is_found_on_the_last_page_wherever_it_begins() {
    let begun = page(0, 960, 2, &[SOUND, BEGUN]);
    let here = stream(&[page(LAST, 960, 2, &[SOUND, BEGUN])]);
    assert_eq!(checked(&here), Ok(vec![(1, 2)]));
    let goes_on = page(CONTINUED | LAST, NO_GRANULE, 3, &[BEGUN]);
    let before = stream(&[begun.clone(), goes_on]);
    assert_eq!(checked(&before), Ok(vec![(1, 3)]));
    let bare = stream(&[
        begun.clone(),
        page(CONTINUED, NO_GRANULE, 3, &[]),
        page(CONTINUED, NO_GRANULE, 4, &[BEGUN]),
        page(CONTINUED | LAST, NO_GRANULE, 5, &[]),
    ]);
    assert_eq!(checked(&bare), Ok(vec![(1, 5)]));
    let ended = stream(&[begun, page(CONTINUED | LAST, 1_440, 3, &[&[]])]);
    assert_eq!(checked(&ended), Ok(vec![]));
    let alone = stream(&[page(LAST, NO_GRANULE, 2, &[BEGUN])]);
    assert_eq!(checked(&alone), Ok(vec![(1, 2)]));
}

#[test]
fn a_missing_end_is_found_on_the_last_page_also_of_the_headers() {
    let pages = [page(0, 960, 2, &[SOUND]), page(0, NO_GRANULE, 3, &[])];
    let bytes = stream(&pages);
    let headers = bytes.len() - pages.concat().len();
    assert_eq!(checked(&bytes), Ok(vec![(2, 3)]));
    assert_eq!(checked(&stream(&pages[..1])), Ok(vec![(2, 2)]));
    assert_eq!(checked(&bytes[..headers]), Ok(vec![(2, 1)]));
    let both = stream(&[page(0, 960, 2, &[SOUND, BEGUN])]);
    assert_eq!(checked(&both), Ok(vec![(1, 2), (2, 2)]));
}

/// A page of these packets, marked last, after a page that ends at 960.
fn ending(granule: u64, packets: &[&[u8]]) -> Result<Found, u32> {
    let pages = [page(0, 960, 2, &[SOUND]), page(LAST, granule, 3, packets)];
    checked(&stream(&pages))
}

#[test]
fn more_is_trimmed_than_the_last_packet() {
    let found = Ok(vec![(3, 3)]);
    let three: &[&[u8]] = &[SOUND; 3];
    assert_eq!(ending(3_840, three), Ok(vec![]));
    assert_eq!(ending(2_880, three), Ok(vec![]), "all of the last");
    assert_eq!(ending(2_879, three), found, "a sample more");
    assert_eq!(ending(1_920, three), found, "two packets");
    assert_eq!(ending(1_919, three), found);
    assert_eq!(ending(960, three), found, "all three");
    assert_eq!(ending(959, three), Err(17));
    assert_eq!(ending(960, &[SOUND]), Ok(vec![]), "all of the only one");
    assert_eq!(ending(1_920, &[SOUND, SHORT]), Ok(vec![]));
    assert_eq!(ending(1_919, &[SOUND, SHORT]), found);
    assert_eq!(ending(1_440, &[SHORT, SOUND]), Ok(vec![]));
    assert_eq!(ending(1_439, &[SHORT, SOUND]), found);
    let open: &[&[u8]] = &[SOUND, SHORT, BEGUN];
    assert_eq!(ending(1_920, open), Ok(vec![(1, 3)]));
    assert_eq!(ending(1_919, open), Ok(vec![(1, 3), (3, 3)]));
    assert_eq!(ending(NO_GRANULE, &[]), Ok(vec![]));
}

#[test]
fn more_is_trimmed_on_the_only_page_with_packets() {
    let only = |granule| checked(&stream(&[page(LAST, granule, 2, &[SOUND; 3])]));
    assert_eq!(only(10_000), Ok(vec![]));
    assert_eq!(only(2_880), Ok(vec![]));
    assert_eq!(only(1_920), Ok(vec![]));
    assert_eq!(only(1_919), Ok(vec![(3, 2)]));
    assert_eq!(only(312), Ok(vec![(3, 2)]));
    assert_eq!(only(311), Err(18));
}

#[test]
fn a_packet_that_began_before_the_last_page_is_the_last_one_or_not() {
    let with = |granule, packets: &[&[u8]]| {
        let begun = page(0, 960, 2, &[SOUND, BEGUN]);
        let last = page(CONTINUED | LAST, granule, 3, packets);
        checked(&stream(&[begun, last]))
    };
    assert_eq!(with(960, &[SHORT]), Ok(vec![]), "all of its 480 samples");
    assert_eq!(with(1_440, &[SHORT, SOUND]), Ok(vec![]));
    assert_eq!(with(1_439, &[SHORT, SOUND]), Ok(vec![(3, 3)]));
}

#[test]
fn a_hole_is_found_on_each_page_that_has_one() {
    let bytes = stream(&[
        page(0, 5_000, 2, &[SOUND]),
        page(0, 5_961, 3, &[SOUND]),
        page(0, NO_GRANULE, 4, &[]),
        page(0, 6_921, 5, &[SOUND]),
        page(0, 10_000, 6, &[SOUND, SHORT]),
        page(LAST, 10_961, 7, &[SOUND]),
    ]);
    assert_eq!(checked(&bytes), Ok(vec![(5, 3), (5, 6), (5, 7)]));
    assert_eq!(ending(1_921, &[SOUND]), Ok(vec![(5, 3)]));
    assert_eq!(ending(1_920, &[SOUND]), Ok(vec![]));
    assert_eq!(ending((1 << 63) - 1, &[SOUND]), Ok(vec![(5, 3)]));
}

#[test]
fn a_thousand_holes_are_told() {
    let pages = (0..1_001).map(|number| page(0, 961 * (number + 1), 2 + number as u32, &[SOUND]));
    let bytes = stream(&pages.collect::<Vec<_>>());
    let mut expected: Found = (3..=1_001).map(|page| (5, page)).collect();
    expected.extend([(2, 1_002), (5, 1_002)]);
    assert_eq!(checked(&bytes), Ok(expected));
}

/// A comment header with one tag.
const TAGGED: &[u8] = b"OpusTags\0\0\0\0\x01\0\0\0\x16\0\0\0replaygain_album_gain=";

/// Audio pages after two header pages with a tag.
fn tagged(audio: &[Vec<u8>]) -> Vec<u8> {
    [head_page(), page(0, 0, 1, &[TAGGED]), audio.concat()].concat()
}

#[test]
fn findings_come_in_the_order_of_pages_and_then_of_kinds() {
    let begun = [
        page(0, 960, 2, &[SOUND]),
        page(0, 2_000, 3, &[SOUND]),
        page(0, 3_000, 4, &[SOUND]),
    ];
    let with = |last: Vec<u8>| checked(&tagged(&[begun.concat(), last]));
    let before = [(4, 1), (5, 3), (5, 4)];
    let and = |more: &[(u64, u64)]| Ok([&before, more].concat());
    let packets: &[&[u8]] = &[SOUND, SOUND, BEGUN];
    assert_eq!(with(page(LAST, 3_500, 5, packets)), and(&[(1, 5), (3, 5)]));
    assert_eq!(with(page(LAST, 5_000, 5, packets)), and(&[(1, 5), (5, 5)]));
    let all = and(&[(1, 5), (2, 5), (5, 5)]);
    assert_eq!(with(page(0, 5_000, 5, packets)), all);
    assert_eq!(with(page(0, 4_920, 5, packets)), and(&[(1, 5), (2, 5)]));
    assert_eq!(with(page(LAST, 3_500, 5, &packets[..2])), and(&[(3, 5)]));
    assert_eq!(with(page(LAST, 4_920, 5, &packets[..2])), and(&[]));
    assert_eq!(with(Vec::new()), Ok(vec![(4, 1), (5, 3), (2, 4), (5, 4)]));
}

#[test]
fn what_is_not_whole_is_refused_before_short_lists_are() {
    let bytes = tagged(&[page(0, 960, 2, &[SOUND]), page(LAST, 2_000, 3, &[SOUND])]);
    assert_eq!(checked(&bytes), Ok(vec![(4, 1), (5, 3)]));
    let mut damaged = bytes.clone();
    *damaged.last_mut().expect("a byte") ^= 1;
    let last = bytes.len() - 29;
    let twice = [&bytes[..], &bytes[last..]].concat();
    let cases = [
        (&bytes[..0], 24),
        (&bytes[..47], 24),
        (&bytes[..48], 3),
        (&bytes[..bytes.len() - 1], 3),
        (&damaged, 4),
        (&twice, 2),
        (&bytes[last..], 6),
    ];
    for (part, number) in cases {
        assert_eq!(checked(part), Err(number));
    }
    assert_eq!(checked(&bytes[..last]), Ok(vec![(4, 1), (2, 2)]));
}
