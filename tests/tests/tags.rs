//! Holds the reading of comment headers to RFC 7845 (section 5.2) and the rules in
//! docs/PROMISES.md: known ones, and each byte, field and name at its ends.

use embulgri_tests::random::Random;
use embulgri_tests::tags::{
    encode, gain_of, JoinedTags, Tags, BAD_GAIN, BAD_TAGS, GAINS, NO_SUCH_COMMENT, VENDOR,
};
use embulgri_tests::tags_calls::{found_tags, Packet};
use embulgri_tests::tags_damages::{beside, field, put_field};
use embulgri_tests::tags_inputs::{in_case, legal_set};
use embulgri_tests::tally::Tally;
use embulgri_tests::writing::written;

/// Packets with their vendor and their comments.
const KNOWN: [(&[u8], &str, &[&str]); 5] = [
    (b"OpusTags\0\0\0\0\0\0\0\0", "", &[]),
    (b"OpusTags\x03\0\0\0abc\x01\0\0\0\0\0\0\0", "abc", &[""]),
    (
        b"OpusTags\x0b\0\0\0libopus 1.4\x02\0\0\0\x07\0\0\0TITLE=x\x14\0\0\0R128_TRACK_GAIN=-573",
        "libopus 1.4",
        &["TITLE=x", "R128_TRACK_GAIN=-573"],
    ),
    (
        b"OpusTags\x02\0\0\0\xc3\xa9\x03\0\0\0\x05\0\0\0=\xe2\x82\xac1\x00\0\0\0\x01\0\0\0=",
        "é",
        &["=€1", "", "="],
    ),
    (
        b"OpusTags\0\0\0\0\x02\0\0\0\x10\0\0\0R128_ALBUM_GAIN=\x0f\0\0\0R128_ALBUM_GAIN",
        "",
        &["R128_ALBUM_GAIN=", "R128_ALBUM_GAIN"],
    ),
];

fn tags_of(vendor: &str, comments: &[&str]) -> Tags {
    Tags {
        vendor: vendor.as_bytes().to_vec(),
        comments: comments.iter().map(|c| c.as_bytes().to_vec()).collect(),
    }
}

/// A packet of comments only.
fn packet_of(comments: &[&[u8]]) -> Vec<u8> {
    encode(&Tags {
        vendor: Vec::new(),
        comments: comments.iter().map(|c| c.to_vec()).collect(),
    })
}

/// Reads a packet, asks for all its comments and gains and for some past the count, counts the
/// answers to reading and gives it.
fn read(bytes: &[u8], tally: &mut Tally, case: &str) -> u32 {
    let packet = Packet::checked(bytes, case);
    let count = packet.count();
    for number in (0..=count.min(8)).chain([count, count + 1, u64::MAX]) {
        packet.comment(number, case);
        packet.gain(number, case);
    }
    tally.add(packet.answer());
    packet.answer()
}

#[test]
fn known_headers_are_read_and_written() {
    for (bytes, vendor, comments) in KNOWN {
        let tags = tags_of(vendor, comments);
        assert_eq!(encode(&tags), bytes);
        assert_eq!(found_tags(bytes), tags);
        assert_eq!(written(&JoinedTags::of(&tags)), bytes);
        assert_eq!(read(bytes, &mut Tally::default(), "known"), 0);
    }
}

#[test]
fn known_wrong_headers_are_refused() {
    let known: [&[u8]; 14] = [
        b"",
        b"OpusTags",
        b"OpusTags\0\0\0\0\0\0\0",
        b"OpusHead\0\0\0\0\0\0\0\0",
        b"opustags\0\0\0\0\0\0\0\0",
        b"OpusTags\x01\0\0\0\0\0\0\0",
        b"OpusTags\0\0\0\0\x01\0\0\0",
        b"OpusTags\0\0\0\0\x01\0\0\0\x01\0\0\0",
        b"OpusTags\xff\xff\xff\xff\0\0\0\0",
        b"OpusTags\0\0\0\0\xff\xff\xff\xff",
        b"OpusTags\x01\0\0\0\xff\0\0\0\0",
        b"OpusTags\0\0\0\0\x01\0\0\0\x02\0\0\0~=",
        b"OpusTags\0\0\0\0\x01\0\0\0\x05\0\0\0\xe2\x82\xac=1",
        b"OpusTags\x01\0\0\0\xc3\x01\0\0\0\x01\0\0\0\xa9",
    ];
    for bytes in known {
        assert_eq!(
            read(bytes, &mut Tally::default(), "known"),
            BAD_TAGS,
            "{bytes:02x?}"
        );
    }
}

#[test]
fn known_gains_have_the_known_answers() {
    let known: [(&str, Result<u64, u32>); 16] = [
        ("a=0", Ok(0)),
        ("=-1", Ok(0xffff)),
        ("R128_TRACK_GAIN=-573", Ok(0xfdc3)),
        ("a=+32767", Ok(0x7fff)),
        ("a=-32768", Ok(0x8000)),
        ("a=-0", Ok(0)),
        ("a=000000", Ok(0)),
        ("a=0000000", Err(BAD_GAIN)),
        ("a=+32768", Err(BAD_GAIN)),
        ("a=-32769", Err(BAD_GAIN)),
        ("a=", Err(BAD_GAIN)),
        ("a=+", Err(BAD_GAIN)),
        ("a=-", Err(BAD_GAIN)),
        ("a==1", Err(BAD_GAIN)),
        ("1", Err(BAD_GAIN)),
        ("a=١", Err(BAD_GAIN)),
    ];
    for (comment, known) in known {
        let gain = gain_of(comment.as_bytes()).map(|gain| gain.cast_unsigned().into());
        assert_eq!(gain.ok_or(BAD_GAIN), known, "{comment}");
        let bytes = packet_of(&[comment.as_bytes()]);
        let answer = Packet::checked(&bytes, comment).gain(0, comment);
        assert_eq!(answer, known.err().unwrap_or(0), "{comment}");
    }
}

#[test]
fn headers_cut_short_at_every_place_are_refused_and_bytes_after_them_ignored() {
    for tags in legal_set() {
        let bytes = encode(&tags);
        let mut tally = Tally::default();
        assert_eq!(read(&bytes, &mut tally, "whole"), 0);
        for length in 0..bytes.len() {
            // What was cut off lies after the bytes that are lent.
            assert_eq!(read(&bytes[..length], &mut tally, "cut"), BAD_TAGS);
        }
        for more in 0..=255 {
            let long = [&bytes[..], &[more; 3]].concat();
            for length in bytes.len()..=long.len() {
                assert_eq!(
                    read(&long[..length], &mut tally, "bytes after the comments"),
                    0
                );
                assert_eq!(found_tags(&long[..length]), tags);
            }
        }
    }
}

#[test]
fn headers_with_any_one_byte_changed_are_read_as_the_rules_say() {
    let mut tally = Tally::default();
    for tags in legal_set() {
        let mut bytes = encode(&tags);
        for place in 0..bytes.len() {
            let right = bytes[place];
            for other in (0..=255).filter(|&byte| byte != right) {
                bytes[place] = other;
                let answer = read(&bytes, &mut tally, "a byte changed");
                assert!(place >= 8 || answer == BAD_TAGS, "byte {place}");
            }
            bytes[place] = right;
        }
    }
    tally.print("comment headers with a byte changed");
}

#[test]
fn counts_and_lengths_at_their_ends_are_read_as_the_rules_say() {
    let mut tally = Tally::default();
    for tags in legal_set() {
        let right = encode(&tags);
        let mut places = vec![8, VENDOR + tags.vendor.len()];
        let mut next = VENDOR + tags.vendor.len() + 4;
        for comment in &tags.comments {
            places.push(next);
            next += 4 + comment.len();
        }
        // With and without bytes after it: a count of 0, and room for lengths of 16 bits.
        for after in [0, 4, 300, 70_000] {
            let mut bytes = right.clone();
            bytes.resize(right.len() + after, 0);
            for &place in &places {
                let value = field(&right, place);
                for other in beside(value) {
                    put_field(&mut bytes, place, other);
                    read(&bytes, &mut tally, "another count or length");
                }
                put_field(&mut bytes, place, value);
            }
        }
    }
    tally.print("comment headers with a count or a length at its ends");
}

#[test]
fn comments_are_asked_for_by_every_number() {
    for count in [0, 1, 2, 7, 255, 256, 257] {
        let comments = vec![&b"a=1"[..]; count];
        let bytes = packet_of(&comments);
        let packet = Packet::checked(&bytes, "count");
        assert_eq!(packet.count(), count as u64);
        let powers = (0..64).flat_map(|bit| [1u64 << bit, (1 << bit) - 1, u64::MAX - (1 << bit)]);
        let wide = (32..64).map(|bit| (1 << bit) + count as u64 / 2);
        for number in (0..300).chain(powers).chain(wide).chain([u64::MAX]) {
            let answer = match number < count as u64 {
                true => 0,
                false => NO_SUCH_COMMENT,
            };
            assert_eq!(packet.comment(number, "a number"), answer);
            assert_eq!(packet.gain(number, "a number"), answer);
        }
    }
}

#[test]
fn every_byte_of_a_name_is_from_0x20_to_0x7d() {
    let mut tally = Tally::default();
    for byte in 0..=255 {
        let plain = (0x20..=0x7d).contains(&byte);
        let shapes: [(&[u8], bool); 8] = [
            (&[byte, b'='], plain),
            (&[byte, b'a', b'='], plain),
            (&[b'a', byte, b'=', b'1'], plain),
            (&[b'a', byte, b'b', b'=', b'='], plain),
            (&[b'=', byte], byte < 0x80),
            (&[b'a', b'=', byte, b'='], byte < 0x80),
            (&[byte], byte < 0x80),
            (&[b'a', byte, b'b'], byte < 0x80),
        ];
        for (comment, right) in shapes {
            for comments in [&[comment][..], &[b"a=b", comment, b"c"]] {
                let answer = read(&packet_of(comments), &mut tally, "a byte of a name");
                assert_eq!(answer, if right { 0 } else { BAD_TAGS }, "{comment:02x?}");
            }
        }
    }
    tally.print("comment headers with any byte in a name");
}

#[test]
fn gain_names_occur_once_in_every_case_of_their_letters() {
    let mut random = Random::of_run(91);
    let mut tally = Tally::default();
    let named = |name: &[u8]| [name, b"=1"].concat();
    for (gain, other) in [(GAINS[0], GAINS[1]), (GAINS[1], GAINS[0])] {
        // Ten letters in each name.
        for small in 0..1024 {
            let first = named(&in_case(gain, small));
            let bare = in_case(gain, small);
            let beside = named(other.as_bytes());
            let mut check = |comments: &[&[u8]], answer| {
                let found = read(&packet_of(comments), &mut tally, "a case of letters");
                assert_eq!(found, answer, "{}", first.escape_ascii());
            };
            check(&[&first], 0);
            check(&[&first, &bare, &bare], 0);
            check(&[&first, &beside], 0);
            check(&[&beside, &first, b"a=1", &first], BAD_TAGS);
            for another in [0, 1023, !small, random.number()] {
                let second = named(&in_case(gain, another));
                check(&[&first, &second], BAD_TAGS);
                check(&[&second, b"", &first], BAD_TAGS);
                check(&[&second, &bare], 0);
            }
        }
    }
    tally.print("comment headers with a gain name in every case of its letters");
}

#[test]
fn names_that_differ_in_any_byte_are_no_gain_names() {
    let mut tally = Tally::default();
    for gain in GAINS {
        let right = [gain.as_bytes(), b"=1"].concat();
        for place in 0..gain.len() {
            for byte in 0x20..=0x7d {
                let mut other = right.clone();
                other[place] = byte;
                let same = byte.eq_ignore_ascii_case(&right[place]);
                let answer = read(&packet_of(&[&right, &other]), &mut tally, "a byte");
                assert_eq!(answer, if same { BAD_TAGS } else { 0 }, "{byte} at {place}");
            }
        }
        for length in 0..gain.len() {
            let shorter = [&right[..length], b"=1"].concat();
            let answer = read(&packet_of(&[&right, &shorter]), &mut tally, "shorter");
            assert_eq!(answer, 0, "{length} bytes of the name");
        }
    }
    tally.print("comment headers with a name that differs in a byte");
}
