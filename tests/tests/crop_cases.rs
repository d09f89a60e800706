//! Crops worked out by hand, of streams of a few pages.

use embulgri_tests::buffer_pages::page_end;
use embulgri_tests::by_hand::{feed, head_of, page, Listed, NO_TAGS, SOUND};
use embulgri_tests::crop::{self, Whole};
use embulgri_tests::crop_calls::{check_crop, check_start};
use embulgri_tests::feed_calls::Feeder;
use embulgri_tests::feeding::{CONTINUED, FIRST, LAST, NO_GRANULE};
use embulgri_tests::head;
use embulgri_tests::ogg;

/// The page of the identification header.
fn head_page() -> Vec<u8> {
    page(FIRST, 0, 0, &[&head::encode(&head_of(312))])
}

/// Audio pages after two header pages.
fn stream(audio: &[Vec<u8>]) -> Vec<u8> {
    [head_page(), page(0, 0, 1, &[NO_TAGS]), audio.concat()].concat()
}

/// Two header pages, of 47 and 44 bytes, and three audio pages of 29 bytes, each with a packet of 960
/// samples, of which the last is marked.
fn five_pages() -> Vec<u8> {
    stream(&[
        page(0, 960, 2, &[SOUND]),
        page(0, 1_920, 3, &[SOUND]),
        page(LAST, 2_880, 4, &[SOUND]),
    ])
}

/// Crops by the rules and by the library, into an output of so many bytes.
fn cropped_in(bytes: &[u8], number: u64, room: usize) -> Result<Vec<u8>, u32> {
    let whole = Whole::of(bytes).and_then(|whole| whole.crop(number));
    let told = whole.as_deref().map_err(|&number| number);
    let answer = check_crop(bytes, number, room, told, "by hand");
    let crop = crop::crop(bytes, number, room);
    assert_eq!(answer, crop.as_ref().err().copied().unwrap_or(0));
    crop
}

/// The same with room for the whole stream.
fn cropped(bytes: &[u8], number: u64) -> Result<Vec<u8>, u32> {
    cropped_in(bytes, number, bytes.len())
}

/// The page to crop at, by the rules and by the library.
fn start(bytes: &[u8], last: u64, position: u64) -> Result<[u64; 2], u32> {
    check_start(bytes, &Whole::of(bytes), [last, position], "by hand");
    crop::crop_start(bytes, last, position)
}

/// The flags, granule position and sequence number of each page.
fn fields(bytes: &[u8]) -> Vec<(u64, u64, u32)> {
    pages(bytes)
        .into_iter()
        .map(|page| ogg::read(page).expect("a right page"))
        .map(|page| (page.flags, page.granule, page.sequence))
        .collect()
}

fn pages(bytes: &[u8]) -> Vec<&[u8]> {
    let mut pages = Vec::new();
    let mut start = 0;
    while start < bytes.len() {
        let end = page_end(bytes, start as u64).expect("a whole page");
        pages.push(&bytes[start..end]);
        start = end;
    }
    pages
}

/// A reader after the pages of a whole stream, and what it listed.
fn listed(bytes: &[u8]) -> (Feeder, Vec<Listed>) {
    let mut feeder = Feeder::started();
    let mut packets = Vec::new();
    for page in pages(bytes) {
        packets.extend(feed(&mut feeder, page).expect("a page of a whole stream"));
    }
    (feeder, packets)
}

#[test]
fn the_second_audio_page_follows_the_headers() {
    let bytes = five_pages();
    assert_eq!(bytes.len(), 47 + 44 + 3 * 29);
    let crop = cropped(&bytes, 3).expect("a crop");
    assert_eq!(crop.len(), 149);
    let expected = [(2, 0, 0), (0, 0, 1), (0, 1_920, 2), (4, 2_880, 3)];
    assert_eq!(fields(&crop), expected);
    assert_eq!(crop[..91], bytes[..91]);
    let third = b"OggS\0\x00\x80\x07\0\0\0\0\0\0\x07\0\0\0\x02\0\0\0\x17\x09\x18\x4d\x01\x01\x08";
    let fourth = b"OggS\0\x04\x40\x0b\0\0\0\0\0\0\x07\0\0\0\x03\0\0\0\x6c\x54\x4c\x17\x01\x01\x08";
    assert_eq!(crop[91..120], *third);
    assert_eq!(crop[120..], *fourth);
}

#[test]
fn the_first_audio_page_leaves_the_stream_as_it_is() {
    let bytes = five_pages();
    assert_eq!(cropped(&bytes, 2), Ok(bytes));
}

#[test]
fn no_crop_begins_at_headers_at_the_end_or_past_it() {
    let bytes = five_pages();
    let past = [5, 6, 255, 1 << 32, (1 << 32) + 3, (1 << 63) + 3, u64::MAX];
    for number in [0, 1, 4].into_iter().chain(past) {
        assert_eq!(cropped(&bytes, number), Err(29), "page {number}");
        assert_eq!(cropped_in(&bytes, number, 0), Err(29), "page {number}");
    }
}

#[test]
fn an_output_of_one_byte_less_is_too_short() {
    let bytes = five_pages();
    for (number, length) in [(2, 178), (3, 149)] {
        for room in [0, 1, 91, length - 1] {
            assert_eq!(cropped_in(&bytes, number, room), Err(22));
        }
        for room in [length, length + 1, 1_000] {
            let crop = cropped_in(&bytes, number, room).expect("a crop");
            assert_eq!(crop.len(), length);
        }
    }
}

#[test]
fn what_is_not_whole_is_refused_first() {
    let bytes = five_pages();
    let mut damaged = bytes.clone();
    damaged[177] ^= 1;
    let twice = [&bytes[..], &bytes[149..]].concat();
    let cases = [
        (&bytes[..0], 24),
        (&bytes[..47], 24),
        (&bytes[..177], 3),
        (&damaged, 4),
        (&twice, 2),
        (&bytes[91..], 6),
    ];
    for (part, number) in cases {
        for page in [0, 2, 3, 9] {
            assert_eq!(cropped_in(part, page, 0), Err(number));
            assert_eq!(cropped(part, page), Err(number));
        }
        assert_eq!(start(part, 3, 960), Err(number));
    }
    for page in 0..4 {
        assert_eq!(cropped(&bytes[..91], page), Err(29), "headers only");
    }
    assert_eq!(start(&bytes[..91], u64::MAX, u64::MAX), Err(29));
}

/// Pages 2 to 8: one that completes a packet and begins another, its end, one that only begins a packet,
/// its end and a packet, one of no lacing values, and two of one packet.
fn seven_kinds() -> Vec<u8> {
    let (begun, end) = ([0; 255], [0; 9]);
    stream(&[
        page(0, 960, 2, &[SOUND, &begun]),
        page(CONTINUED, 1_440, 3, &[&end]),
        page(0, NO_GRANULE, 4, &[&begun]),
        page(CONTINUED, 2_880, 5, &[&end, SOUND]),
        page(0, NO_GRANULE, 6, &[]),
        page(0, 10_000, 7, &[SOUND]),
        page(0, 10_960, 8, &[SOUND]),
    ])
}

#[test]
fn a_crop_begins_where_a_packet_begins_and_completes() {
    let bytes = seven_kinds();
    let answers = (0..10).map(|page| cropped(&bytes, page).err().unwrap_or(0));
    let expected = [29, 29, 0, 29, 29, 29, 29, 0, 0, 29];
    assert_eq!(answers.collect::<Vec<u32>>(), expected);
    let crop = cropped(&bytes, 7).expect("a crop");
    let expected = [(2, 0, 0), (0, 0, 1), (0, 10_000, 2), (0, 10_960, 3)];
    assert_eq!(fields(&crop), expected);
}

#[test]
fn the_page_to_crop_at_starts_at_or_before_the_position() {
    let bytes = five_pages();
    let last = u64::MAX;
    assert_eq!(start(&bytes, last, 0), Ok([2, 0]));
    assert_eq!(start(&bytes, last, 959), Ok([2, 0]));
    assert_eq!(start(&bytes, last, 960), Ok([3, 960]));
    assert_eq!(start(&bytes, last, 1_920), Ok([3, 960]), "4 is marked last");
    assert_eq!(start(&bytes, last, u64::MAX), Ok([3, 960]));
    assert_eq!(start(&bytes, 3, 960), Ok([3, 960]));
    assert_eq!(start(&bytes, 2, u64::MAX), Ok([2, 0]));
    assert_eq!(start(&bytes, 1, u64::MAX), Err(29));
    assert_eq!(start(&bytes, 0, u64::MAX), Err(29));
}

#[test]
fn a_packet_starts_after_a_hole_and_after_the_initial_position() {
    let bytes = seven_kinds();
    let last = u64::MAX;
    assert_eq!(start(&bytes, last, 9_039), Ok([2, 0]));
    assert_eq!(start(&bytes, last, 9_040), Ok([7, 9_040]));
    assert_eq!(start(&bytes, last, 9_999), Ok([7, 9_040]));
    assert_eq!(start(&bytes, last, 10_000), Ok([8, 10_000]));
    assert_eq!(start(&bytes, 7, 10_000), Ok([7, 9_040]));
    assert_eq!(start(&bytes, 6, 10_000), Ok([2, 0]));
    let late = stream(&[page(0, 5_000, 2, &[SOUND, SOUND])]);
    assert_eq!(start(&late, last, 3_079), Err(29));
    assert_eq!(start(&late, last, 3_080), Ok([2, 3_080]));
    assert_eq!(start(&late, last, 4_040), Ok([2, 3_080]));
}

/// The comments go over pages 1 to 3.
#[test]
fn header_pages_are_as_many_as_the_comments_need() {
    let mut comments = NO_TAGS.to_vec();
    comments.resize(600, 0);
    let bytes = [
        head_page(),
        page(0, NO_GRANULE, 1, &[&comments[..255]]),
        page(CONTINUED, NO_GRANULE, 2, &[&comments[255..510]]),
        page(CONTINUED, 0, 3, &[&comments[510..]]),
        page(0, 960, 4, &[SOUND]),
        page(0, 1_920, 5, &[SOUND]),
        page(0, 2_880, 6, &[SOUND]),
    ];
    let bytes = bytes.concat();
    let answers = (0..8).map(|page| cropped(&bytes, page).err().unwrap_or(0));
    let expected = [29, 29, 29, 29, 0, 0, 0, 29];
    assert_eq!(answers.collect::<Vec<u32>>(), expected);
    let crop = cropped(&bytes, 6).expect("a crop");
    let numbers: Vec<u32> = fields(&crop).iter().map(|fields| fields.2).collect();
    assert_eq!(numbers, [0, 1, 2, 3, 4]);
    assert_eq!(fields(&crop)[4], (0, 2_880, 4));
    assert_eq!(start(&bytes, 5, 2_000), Ok([5, 960]));
}

/// The pre-skip is taken from the first packets of the crop, so that these keep less.
#[test]
fn stamps_stay_and_kept_counts_do_not() {
    let bytes = five_pages();
    let (_, packets) = listed(&bytes);
    let first = (960, 960, 648, 1);
    let kept = [(1_920, 960, 960, 1), (2_880, 960, 960, 1)];
    assert_eq!(packets, [first, kept[0], kept[1]]);
    let (_, packets) = listed(&cropped(&bytes, 3).expect("a crop"));
    assert_eq!(packets, [(1_920, 960, 648, 1), kept[1]]);
}

#[test]
fn further_pages_get_the_same_answers() {
    let bytes = seven_kinds();
    let crop = cropped(&bytes, 7).expect("a crop");
    let mut readers = [(listed(&bytes).0, 9), (listed(&crop).0, 4)];
    let told = readers.each_mut().map(|(reader, next)| {
        [
            feed(reader, &page(0, 11_920, *next + 1, &[SOUND])),
            feed(reader, &page(0, 11_919, *next, &[SOUND])),
            feed(reader, &page(CONTINUED, 11_920, *next, &[SOUND])),
            feed(reader, &page(0, 11_920, *next, &[SOUND, &[0; 255]])),
            feed(reader, &page(0, 12_880, *next + 1, &[SOUND])),
            feed(reader, &page(CONTINUED | LAST, 12_000, *next + 1, &[&[]])),
            feed(reader, &page(0, 12_880, *next + 2, &[SOUND])),
        ]
    });
    let expected = [
        Err(6),
        Err(17),
        Err(8),
        Ok(vec![(11_920, 960, 960, 1)]),
        Err(8),
        Ok(vec![(12_400, 480, 80, 1)]),
        Err(2),
    ];
    assert_eq!(told, [expected.clone(), expected]);
}
