//! Holds the reading of identification headers to RFC 7845 (section 5.1), RFC 8486 and the rules in
//! docs/PROMISES.md, and the writing of known ones.

use embulgri_tests::calls::{check_head, found_head};
use embulgri_tests::head::{
    encode, Head, BAD_HEAD, BAD_MAPPING, CHANNELS, FAMILY, MATRIX, PLACES, SHORTEST, TABLE,
    VERSION, WIDTHS,
};
use embulgri_tests::head_inputs::{
    legal_set, with_matrix, with_table, without_table, AMBISONIC, COUNTS,
};
use embulgri_tests::random::Random;
use embulgri_tests::tally::Tally;
use embulgri_tests::writing::written;

/// A header of each family that is known, with its fields and its indices, or its matrix. The bytes of
/// the second one's fields all differ, which shows their order.
const KNOWN: [(&[u8], [u64; 8], &[u8]); 7] = [
    (
        b"OpusHead\x01\x02\x38\x01\x80\xbb\0\0\0\0\0",
        [1, 2, 312, 48_000, 0, 0, 1, 1],
        &[0, 1],
    ),
    (
        b"OpusHead\x01\x01\x12\x11\x24\x23\x22\x21\x32\x31\0",
        [1, 1, 0x1112, 0x2122_2324, 0x3132, 0, 1, 0],
        &[0],
    ),
    (
        b"OpusHead\x01\x06\x38\x01\x44\xac\0\0\0\xff\x01\x04\x02\x00\x04\x01\x02\x03\x05",
        [1, 6, 312, 44_100, 0xff00, 1, 4, 2],
        &[0, 4, 1, 2, 3, 5],
    ),
    (
        b"OpusHead\x01\x04\x38\x01\x80\xbb\0\0\0\0\x02\x03\x01\x03\x02\xff\x00",
        [1, 4, 312, 48_000, 0, 2, 3, 1],
        &[3, 2, 255, 0],
    ),
    (
        b"OpusHead\x01\x03\x38\x01\x80\xbb\0\0\0\0\x03\x01\x01\0\x40\x82\x5a\0\0\x7e\xa5\xff\x7f\0\x80",
        [1, 3, 312, 48_000, 0, 3, 1, 1],
        &[0, 0x40, 0x82, 0x5a, 0, 0, 0x7e, 0xa5, 0xff, 0x7f, 0, 0x80],
    ),
    (
        b"OpusHead\x01\x03\xff\xff\xff\xff\xff\xff\xff\x7f\xff\x80\x7f\xff\xfe\x00",
        [1, 3, 0xffff, 0xffff_ffff, 0x7fff, 255, 128, 127],
        &[255, 254, 0],
    ),
    (
        b"OpusHead\x01\x01\0\0\0\0\0\0\x00\x80\xff\xff\x00\xfe",
        [1, 1, 0, 0, 0x8000, 255, 255, 0],
        &[254],
    ),
];

fn known_head(fields: [u64; 8], table: &[u8]) -> Head {
    let mut mapping = [0; PLACES];
    let is_matrix = fields[5] == MATRIX;
    let (indices, matrix) = if is_matrix {
        (&[][..], table)
    } else {
        (table, &[][..])
    };
    mapping[..indices.len()].copy_from_slice(indices);
    Head::new(fields, mapping, matrix.to_vec())
}

/// Reads a header, counts the answer and gives it.
fn read(packet: &[u8], tally: &mut Tally, case: &str) -> u32 {
    let answer = check_head(packet, case).err().unwrap_or(0);
    tally.add(answer);
    answer
}

#[test]
fn known_headers_are_read_and_written() {
    for (bytes, fields, table) in KNOWN {
        let head = known_head(fields, table);
        assert_eq!(found_head(bytes), head);
        assert_eq!(written(&head), bytes);
        assert_eq!(check_head(bytes, "known"), Ok(head));
    }
}

#[test]
fn known_headers_of_other_versions_are_read() {
    let plain: [(&[u8], u64); 4] = [
        (b"OpusHead\x00\x02\x38\x01\x80\xbb\0\0\0\0\0", 0),
        (b"OpusHead\x02\x02\x38\x01\x80\xbb\0\0\0\0\0", 2),
        (b"OpusHead\x02\x02\x38\x01\x80\xbb\0\0\0\0\0\x07", 2),
        (b"OpusHead\x0f\x02\x38\x01\x80\xbb\0\0\0\0\0more", 15),
    ];
    for (bytes, version) in plain {
        let head = known_head([version, 2, 312, 48_000, 0, 0, 1, 1], &[0, 1]);
        assert_eq!(check_head(bytes, "known"), Ok(head));
    }
    let long = b"OpusHead\x03\x03\0\0\0\0\0\0\0\0\x01\x02\x01\x00\x02\x01\x09\x09";
    let head = known_head([3, 3, 0, 0, 0, 1, 2, 1], &[0, 2, 1]);
    assert_eq!(check_head(long, "known"), Ok(head));
}

#[test]
fn known_wrong_headers_have_the_known_answers() {
    let known: [(&[u8], u32); 18] = [
        (b"", BAD_HEAD),
        (b"OpusTags\x01\x02\x38\x01\x80\xbb\0\0\0\0\0", BAD_HEAD),
        (b"OpusHead\x10\x02\x38\x01\x80\xbb\0\0\0\0\0", BAD_HEAD),
        (b"OpusHead\x11\x02\x38\x01\x80\xbb\0\0\0\0\0", BAD_HEAD),
        (b"OpusHead\x00\x02\x38\x01\x80\xbb\0\0\0\0\0\0", BAD_HEAD),
        (b"OpusHead\x01\x02\x38\x01\x80\xbb\0\0\0\0\0\0", BAD_HEAD),
        (b"OpusHead\x02\x02\x38\x01\x80\xbb\0\0\0\0", BAD_HEAD),
        (b"OpusHead\x0f\x01\0\0\0\0\0\0\0\0\x01\x01\x00", BAD_HEAD),
        (b"OpusHead\x01\x02\x38\x01\x80\xbb\0\0\0\0\x01", BAD_HEAD),
        (b"OpusHead\x01\x03\x38\x01\x80\xbb\0\0\0\0\0", BAD_MAPPING),
        (b"OpusHead\x02\x03\x38\x01\x80\xbb\0\0\0\0\0\0", BAD_MAPPING),
        (b"OpusHead\x01\x00\0\0\0\0\0\0\0\0\xff\x01\x00", BAD_MAPPING),
        (b"OpusHead\x01\x01\0\0\0\0\0\0\0\0\x01\0\0\xff", BAD_MAPPING),
        (b"OpusHead\x01\x01\0\0\0\0\0\0\0\0\x04\x01\0\0", BAD_MAPPING),
        (
            b"OpusHead\x01\x02\0\0\0\0\0\0\0\0\x02\x02\0\0\x01",
            BAD_MAPPING,
        ),
        (
            b"OpusHead\x01\x01\0\0\0\0\0\0\0\0\x01\x01\x02\0",
            BAD_MAPPING,
        ),
        (
            b"OpusHead\x01\x01\0\0\0\0\0\0\0\0\x01\x01\x00\x01",
            BAD_MAPPING,
        ),
        (
            b"OpusHead\x01\x01\0\0\0\0\0\0\0\0\xff\x80\x80\x00",
            BAD_MAPPING,
        ),
    ];
    for (bytes, answer) in known {
        assert_eq!(check_head(bytes, "known"), Err(answer), "{bytes:02x?}");
    }
}

#[test]
fn every_family_and_number_of_channels_is_read_at_the_right_length_only() {
    let mut random = Random::of_run(31);
    let mut tally = Tally::default();
    for family in 0..=255 {
        for channels in 0..=PLACES {
            let head = match family {
                0 => without_table(&mut random, channels),
                3 => with_matrix(&mut random, channels, (3, 2)),
                _ => with_table(&mut random, family, channels, (3, 2)),
            };
            let legal = match family {
                0 => (1..=2).contains(&channels),
                1 => (1..=8).contains(&channels),
                2 | 3 => AMBISONIC.contains(&channels),
                _ => family == 255 && channels > 0,
            };
            let mut bytes = encode(&head);
            let right = bytes.len();
            let answer = read(&bytes, &mut tally, "the right length");
            assert_eq!(answer, if legal { 0 } else { BAD_MAPPING });
            bytes.extend([0; 300]);
            let shorter = [0, SHORTEST, SHORTEST + 2, right - 2, right - 1];
            let longer = [right + 1, right + 2, SHORTEST + 2 + channels, right + 300];
            for length in shorter.into_iter().chain(longer).filter(|&n| n != right) {
                let answer = read(&bytes[..length], &mut tally, "another length");
                assert_eq!(answer, BAD_HEAD, "{length} in place of {right}");
            }
        }
    }
    tally.print("headers of every family and number of channels");
}

#[test]
fn every_stream_count_and_coupled_count_is_read_as_the_rules_say() {
    let mut tally = Tally::default();
    let families = [
        (1, &[0][..]),
        (1, &[255]),
        (2, &[255]),
        (255, &[255, 0, 255]),
    ];
    for (family, indices) in families {
        for streams in 0..=255 {
            for coupled in 0..=255 {
                let fields = [1, indices.len() as u64, 0, 0, 0, family, streams, coupled];
                let bytes = encode(&known_head(fields, indices));
                let legal = streams > 0 && coupled <= streams && streams + coupled <= 255;
                let answer = read(&bytes, &mut tally, "counts");
                assert_eq!(answer, if legal { 0 } else { BAD_MAPPING });
            }
        }
    }
    tally.print("headers of every stream count and coupled count");
}

#[test]
fn an_index_at_every_place_is_below_the_counts_or_255() {
    let mut random = Random::of_run(32);
    let mut tally = Tally::default();
    let first = [(1, 1), (1, 2), (1, 8), (2, 4), (2, 11)];
    let channels = [&first[..], &[(255, 1), (255, 9), (255, 255)]].concat();
    for counts in COUNTS {
        let decoded = counts.0 + counts.1;
        for &(family, channels) in &channels {
            let head = with_table(&mut random, family, channels, counts);
            for place in 0..channels {
                for index in [0, decoded - 1, decoded, decoded + 1, 254, 255] {
                    let mut head = head.clone();
                    head.mapping[place] = index.min(255) as u8;
                    let legal = index < decoded || index >= 255;
                    let answer = read(&encode(&head), &mut tally, "an index");
                    assert_eq!(answer, if legal { 0 } else { BAD_MAPPING });
                }
            }
        }
    }
    tally.print("headers of an index at its ends");
}

#[test]
fn fields_are_read_at_the_ends_of_their_widths() {
    for (bytes, fields, table) in KNOWN {
        // Pre-skip, input rate and output gain, each with its first byte.
        for (place, at) in [(2, 10), (3, 12), (4, 16)] {
            let width = WIDTHS[place];
            for value in (0..width).flat_map(|bit| [1u64 << bit, (1 << bit) - 1, (2 << bit) - 1]) {
                let mut fields = fields;
                fields[place] = value;
                let mut bytes = bytes.to_vec();
                let length = width as usize / 8;
                bytes[at..][..length].copy_from_slice(&value.to_le_bytes()[..length]);
                let head = known_head(fields, table);
                assert_eq!(check_head(&bytes, "a field"), Ok(head));
            }
        }
    }
}

#[test]
fn headers_cut_short_at_every_place_are_refused_and_so_are_old_ones_of_a_byte_too_many() {
    for mut head in legal_set(&mut Random::of_run(33)) {
        for version in 0..=15 {
            head.version = version;
            let bytes = encode(&head);
            assert_eq!(check_head(&bytes, "whole").as_ref(), Ok(&head));
            for length in 0..bytes.len() {
                // What was cut off lies after the bytes that are lent.
                assert_eq!(check_head(&bytes[..length], "cut"), Err(BAD_HEAD));
            }
            let told = match version {
                0 | 1 => Err(BAD_HEAD),
                _ => Ok(head.clone()),
            };
            for more in 0..=255 {
                let long = [&bytes[..], &[more]].concat();
                assert_eq!(check_head(&long, "a byte more"), told);
            }
        }
    }
}

#[test]
fn headers_with_any_one_byte_changed_are_read_as_the_rules_say() {
    let mut tally = Tally::default();
    for head in legal_set(&mut Random::of_run(34)) {
        let right = encode(&head);
        for place in 0..right.len() {
            let mut bytes = right.clone();
            for other in (0..=255).filter(|&byte| byte != right[place]) {
                bytes[place] = other;
                let answer = read(&bytes, &mut tally, "a byte changed");
                match place {
                    VERSION if other < 16 => assert_eq!(answer, 0, "version {other}"),
                    0..CHANNELS => assert_eq!(answer, BAD_HEAD, "byte {place}"),
                    CHANNELS if head.family != 0 => assert_eq!(answer, BAD_HEAD),
                    CHANNELS | FAMILY => (),
                    10..FAMILY => assert_eq!(answer, 0, "byte {place}"),
                    SHORTEST..TABLE if head.family == MATRIX => assert_eq!(answer, BAD_HEAD),
                    _ if head.family == MATRIX => assert_eq!(answer, 0, "byte {place}"),
                    _ => assert_ne!(answer, BAD_HEAD, "byte {place}"),
                }
            }
        }
    }
    tally.print("headers with a byte changed");
}
