//! Holds the checksum, the reading and the writing of pages to RFC 3533 and the rules in
//! docs/PROMISES.md.

use embulgri_tests::calls::{check_reading, found, read_page};
use embulgri_tests::damages::{DAMAGES, UNDAMAGED};
use embulgri_tests::demands::{DEMANDS, LEGAL, ROOMS};
use embulgri_tests::ffi;
use embulgri_tests::inputs;
use embulgri_tests::ogg::{self, Page, ILLEGAL_PAGE, LONGEST, NOT_A_PAGE, NO_ROOM, WRONG_CHECKSUM};
use embulgri_tests::random::Random;
use embulgri_tests::reading::Reading;
use embulgri_tests::tally::Tally;
use embulgri_tests::writing::{assert_same_bytes, check_writing, written, Request, BEFORE};

const CASES: usize = 120_000;
const LEAST_CASES: usize = 100_000;
const ROUND_TRIPS: usize = 20_000;

/// The first page of an Opus stream: an identification header of two channels and pre-skip 312.
const OPUS_HEAD_PAGE: [u8; 47] = [
    0x4f, 0x67, 0x67, 0x53, 0x00, 0x02, 0x00, 0x00, 0x00, 0x00, 0x00, 0x00, 0x00, 0x00, 0x67, 0x12,
    0x00, 0x00, 0x00, 0x00, 0x00, 0x00, 0x9b, 0x8c, 0xf2, 0xf1, 0x01, 0x13, 0x4f, 0x70, 0x75, 0x73,
    0x48, 0x65, 0x61, 0x64, 0x01, 0x02, 0x38, 0x01, 0x80, 0xbb, 0x00, 0x00, 0x00, 0x00, 0x00,
];

/// A page whose fields' bytes all differ, which shows their order.
const ORDERED_PAGE: [u8; 34] = [
    0x4f, 0x67, 0x67, 0x53, 0x00, 0x05, 0x08, 0x07, 0x06, 0x05, 0x04, 0x03, 0x02, 0x01, 0x14, 0x13,
    0x12, 0x11, 0x24, 0x23, 0x22, 0x21, 0xf0, 0xb9, 0x27, 0xf2, 0x03, 0x00, 0x03, 0x01, 0xaa, 0xbb,
    0xcc, 0xdd,
];

fn longest_page() -> Page {
    Page {
        flags: 7,
        granule: u64::MAX,
        serial: u32::MAX,
        sequence: u32::MAX,
        lacing: vec![255; 255],
        body: vec![0x5a; 255 * 255],
    }
}

#[test]
fn checksum_of_known_bytes_is_the_known_one() {
    let all: Vec<u8> = (0..=255).collect();
    let known: [(&[u8], u32); 7] = [
        (b"", 0),
        (&[0; 40], 0),
        (b"\x01", 0x04c1_1db7),
        (b"\x80", 0x690c_e0ee),
        (b"OggS", 0x5fb0_a94f),
        (b"123456789", 0x89a1_897f),
        (&all, 0xac14_8725),
    ];
    for (bytes, checksum) in known {
        assert_eq!(ffi::checksum(bytes), checksum, "{bytes:?}");
        assert_eq!(ogg::checksum_by_bits(bytes), checksum, "{bytes:?}");
    }
}

#[test]
fn checksum_is_the_bitwise_one_at_every_short_length_and_alignment() {
    let bytes = Random::of_run(1).bytes(616);
    for start in 0..16 {
        for length in 0..=600 {
            let part = &bytes[start..][..length];
            let expected = ogg::checksum_by_bits(part);
            assert_eq!(ffi::checksum(part), expected, "{length} from {start}");
        }
    }
}

#[test]
fn checksum_is_the_bitwise_one_at_random_lengths() {
    let mut random = Random::of_run(2);
    let bytes = random.bytes(70_064);
    for _ in 0..2_000 {
        let (start, length) = (random.below(65), random.within(0..=70_000));
        let part = &bytes[start..][..length];
        let expected = ogg::checksum_by_bits(part);
        assert_eq!(ffi::checksum(part), expected, "{length} from {start}");
    }
}

#[test]
fn reading_a_known_page_gives_its_numbers() {
    let numbers = [2, 0, 0x1267, 0, 1, 19];
    assert_eq!(read_page(&OPUS_HEAD_PAGE), Reading::accepted(numbers));
    let numbers = [5, 0x0102_0304_0506_0708, 0x1112_1314, 0x2122_2324, 3, 4];
    assert_eq!(read_page(&ORDERED_PAGE), Reading::accepted(numbers));
}

#[test]
fn writing_a_known_page_gives_its_bytes() {
    let head = Page {
        flags: 2,
        granule: 0,
        serial: 0x1267,
        sequence: 0,
        lacing: vec![19],
        body: b"OpusHead\x01\x02\x38\x01\x80\xbb\0\0\0\0\0".to_vec(),
    };
    assert_eq!(written(&head), OPUS_HEAD_PAGE);
    let ordered = Page {
        flags: 5,
        granule: 0x0102_0304_0506_0708,
        serial: 0x1112_1314,
        sequence: 0x2122_2324,
        lacing: vec![0, 3, 1],
        body: vec![0xaa, 0xbb, 0xcc, 0xdd],
    };
    assert_eq!(written(&ordered), ORDERED_PAGE);
}

#[test]
fn reading_refuses_every_beginning_of_a_page() {
    for length in 0..OPUS_HEAD_PAGE.len() {
        let reading = read_page(&OPUS_HEAD_PAGE[..length]);
        assert_eq!(reading, Reading::refused(NOT_A_PAGE), "{length} bytes");
    }
}

#[test]
fn reading_refuses_a_page_with_any_one_bit_flipped() {
    for bit in 0..8 * ORDERED_PAGE.len() {
        let mut page = ORDERED_PAGE;
        page[bit / 8] ^= 1 << (bit % 8);
        let number = match bit / 8 {
            0..=4 | 26..=29 => NOT_A_PAGE,
            _ => WRONG_CHECKSUM,
        };
        assert_eq!(read_page(&page), Reading::refused(number), "bit {bit}");
    }
}

#[test]
fn reading_takes_any_flags_and_writing_those_up_to_seven() {
    for flags in 0..=1024 {
        let page = Page {
            flags,
            ..found(&OPUS_HEAD_PAGE)
        };
        let bytes = ogg::encode(&page);
        if flags <= 255 {
            assert_eq!(found(&bytes), page, "flags {flags}");
        }
        let answer = check_writing(&Request::exact(&page), "flags");
        let expected = if flags <= 7 { 0 } else { ILLEGAL_PAGE };
        assert_eq!(answer, expected, "flags {flags}");
    }
}

#[test]
fn the_longest_page_is_read_and_written_and_not_one_byte_more() {
    let page = longest_page();
    let mut bytes = written(&page);
    assert_eq!(bytes.len(), LONGEST);
    assert!(found(&bytes) == page);
    let short = Request {
        room: LONGEST - 1,
        ..Request::exact(&page)
    };
    assert_eq!(check_writing(&short, "a byte too few"), NO_ROOM);
    bytes.push(0);
    assert_eq!(check_reading(&bytes, "a byte too many"), NOT_A_PAGE);
}

#[test]
fn reading_gives_the_number_and_the_fields_that_the_rules_say() {
    let mut random = Random::of_run(3);
    let mut tally = Tally::default();
    for number in 0..CASES {
        let mut bytes = inputs::page_bytes(&mut random);
        let damage = match random.one_in(2) {
            true => &UNDAMAGED,
            false => random.pick(DAMAGES),
        };
        (damage.apply)(&mut random, &mut bytes);
        let (buffer, start) = inputs::shifted(&mut random, &bytes);
        let case = format!("input {number}: {}", damage.name);
        let answer = check_reading(&buffer[start..], &case);
        assert!(damage.answers.contains(&answer), "{answer}, {case}");
        tally.add(answer);
    }
    tally.finish("reading", LEAST_CASES, &[NOT_A_PAGE, WRONG_CHECKSUM]);
}

#[test]
fn writing_gives_the_number_and_the_bytes_that_the_rules_say() {
    let mut random = Random::of_run(4);
    let mut tally = Tally::default();
    for number in 0..CASES {
        let mut page = inputs::page(&mut random);
        let demand = match random.one_in(4) {
            true => random.pick(DEMANDS),
            false => &LEGAL,
        };
        (demand.apply)(&mut random, &mut page);
        let lent = random.pick(ROOMS);
        let mut room = page.length();
        (lent.apply)(&mut random, &mut room);
        let request = Request {
            input: &page,
            before: BEFORE + random.below(16),
            room,
        };
        let case = format!("input {number}: {}, output {}", demand.name, lent.name);
        let answer = check_writing(&request, &case);
        assert!(demand.answers.contains(&answer), "{answer}, {case}");
        assert!(
            answer == ILLEGAL_PAGE || lent.answers.contains(&answer),
            "{answer}, {case}"
        );
        tally.add(answer);
    }
    tally.finish("writing", LEAST_CASES, &[NO_ROOM, ILLEGAL_PAGE]);
}

#[test]
fn reading_what_was_written_gives_the_same_page() {
    let mut random = Random::of_run(5);
    for _ in 0..ROUND_TRIPS {
        let page = inputs::page(&mut random);
        assert!(found(&written(&page)) == page, "{:?}", page.numbers());
    }
}

#[test]
fn writing_what_was_read_gives_the_same_bytes() {
    let mut random = Random::of_run(6);
    for number in 0..ROUND_TRIPS {
        let bytes = ogg::encode(&inputs::page(&mut random));
        let again = written(&found(&bytes));
        assert_same_bytes(&again, &bytes, format_args!("page {number}"));
    }
}
