//! Holds the reading of comment headers to RFC 3629 by Rust's own reading of UTF-8, and the reading
//! of gains to Rust's own reading of numbers.

use embulgri_tests::random::Random;
use embulgri_tests::tags::{encode, Tags, BAD_GAIN, BAD_TAGS};
use embulgri_tests::tags_calls::Packet;
use embulgri_tests::tags_inputs::{text, GAIN_CHARACTERS, NO_UTF8};
use embulgri_tests::tally::Tally;

const STRINGS: usize = 1_000_000;
const GAIN_TEXTS: usize = 500_000;

/// The tails of characters at the ends of their range and past them, and those at the ends of what
/// may follow some lead bytes.
const TAILS: [u8; 12] = [
    0x00, 0x3d, 0x7f, 0x80, 0x8f, 0x90, 0x9f, 0xa0, 0xbf, 0xc0, 0xc3, 0xff,
];

/// A packet with the bytes as its vendor.
fn with_vendor(vendor: &[u8]) -> Vec<u8> {
    encode(&Tags {
        vendor: vendor.to_vec(),
        comments: Vec::new(),
    })
}

/// A packet with the bytes after the name of its one comment.
fn with_value(value: &[u8]) -> Vec<u8> {
    encode(&Tags {
        vendor: Vec::new(),
        comments: vec![[b"a=", value].concat()],
    })
}

/// Reads bytes as a vendor and as a value, and counts the answers.
fn check(bytes: &[u8], tally: &mut Tally) {
    let answer = match str::from_utf8(bytes) {
        Ok(_) => 0,
        Err(_) => BAD_TAGS,
    };
    for packet in [with_vendor(bytes), with_value(bytes)] {
        let found = Packet::checked(&packet, "a string").answer();
        assert_eq!(found, answer, "{bytes:02x?}");
        tally.add(found);
    }
}

#[test]
fn every_string_of_one_or_two_bytes_is_text_or_not() {
    let mut tally = Tally::default();
    for first in 0..=255 {
        check(&[first], &mut tally);
        for second in 0..=255 {
            check(&[first, second], &mut tally);
        }
    }
    tally.print("all strings of one or two bytes");
}

#[test]
fn every_lead_byte_with_tails_at_their_ends_is_text_or_not() {
    let mut tally = Tally::default();
    for lead in 0..=255 {
        for first in TAILS {
            for second in TAILS {
                for third in TAILS {
                    let bytes = [lead, first, second, third];
                    check(&bytes[..3], &mut tally);
                    check(&bytes, &mut tally);
                }
            }
        }
        for tails in 0..625_usize {
            let ends = [0x7f, 0x80, 0xbf, 0xc3, b'a'];
            let tail = |power| ends[tails / power % 5];
            check(&[lead, tail(1), tail(5), tail(25), tail(125)], &mut tally);
        }
    }
    tally.print("all lead bytes with tails at their ends");
}

#[test]
fn every_number_in_every_form_is_a_character_or_not() {
    let mut tally = Tally::default();
    let forms: [(usize, u32); 4] = [(1, 0x80), (2, 0x800), (3, 0x1_0000), (4, 0x20_0000)];
    for (length, limit) in forms {
        for number in 0..limit {
            let mut bytes = [0; 4];
            let bits = |place: usize| (number >> (6 * (length - 1 - place))) as u8;
            for (place, byte) in bytes[..length].iter_mut().enumerate() {
                *byte = 0x80 | bits(place) & 0x3f;
            }
            let mark = [0, 0, 0xc0, 0xe0, 0xf0][length];
            bytes[0] = mark | bits(0);
            let character = char::from_u32(number).filter(|c| c.len_utf8() == length);
            let packet = with_vendor(&bytes[..length]);
            let answer = Packet::checked(&packet, "a number").answer();
            let right = if character.is_some() { 0 } else { BAD_TAGS };
            assert_eq!(answer, right, "{number:x} in {length} bytes");
            tally.add(answer);
        }
    }
    tally.print("all numbers in all forms of UTF-8");
}

#[test]
fn short_strings_are_text_or_not() {
    let mut random = Random::of_run(101);
    let mut tally = Tally::default();
    for _ in 0..STRINGS {
        let mut bytes = text(&mut random);
        match random.below(8) {
            0 => bytes.extend(*random.pick(&NO_UTF8)),
            1 if !bytes.is_empty() => bytes.truncate(random.below(bytes.len())),
            2 if !bytes.is_empty() => {
                let place = random.below(bytes.len());
                bytes[place] = random.byte();
            }
            3 => {
                let length = random.within(1..=5);
                bytes = random.bytes(length);
            }
            _ => (),
        }
        check(&bytes, &mut tally);
    }
    tally.finish("short strings as vendor and as value", STRINGS, &[BAD_TAGS]);
}

/// Reads the gain of a packet's one comment and gives the answer.
fn gain(value: &[u8]) -> u32 {
    Packet::checked(&with_value(value), "a gain").gain(0, "a gain")
}

/// Reads a gain, holds the answer to Rust's own reading, and counts it.
fn check_gain(value: &[u8], tally: &mut Tally) {
    let text = str::from_utf8(value).expect("text");
    let right = value.len() <= 6 && text.parse::<i16>().is_ok();
    let answer = gain(value);
    assert_eq!(answer, if right { 0 } else { BAD_GAIN }, "{text}");
    tally.add(answer);
}

#[test]
fn every_text_of_up_to_five_characters_is_a_gain_or_not() {
    let mut tally = Tally::default();
    check_gain(b"", &mut tally);
    for length in 1..=5 {
        for number in 0..13_usize.pow(length) {
            let character = |place| GAIN_CHARACTERS[number / 13_usize.pow(place) % 13];
            let value: Vec<u8> = (0..length).map(character).collect();
            check_gain(&value, &mut tally);
        }
    }
    tally.print("gain texts of up to five characters");
}

#[test]
fn every_number_of_up_to_six_digits_is_a_gain_or_not() {
    let mut tally = Tally::default();
    for width in 1..=6 {
        for number in 0..10_u32.pow(width as u32) {
            for sign in ["", "+", "-"] {
                let value = format!("{sign}{number:0width$}");
                check_gain(value.as_bytes(), &mut tally);
            }
        }
    }
    tally.print("gain texts of up to six digits, with a sign and without");
}

#[test]
fn every_two_bytes_are_a_gain_or_not() {
    let mut tally = Tally::default();
    for first in 0..=255 {
        for second in 0..=255 {
            let value = [first, second];
            match str::from_utf8(&value) {
                Ok(_) => check_gain(&value, &mut tally),
                Err(_) => assert_eq!(gain(&value), BAD_TAGS),
            }
        }
    }
    tally.print("gain texts of any two bytes");
}

#[test]
fn random_texts_are_a_gain_or_not() {
    let mut random = Random::of_run(102);
    let mut tally = Tally::default();
    for _ in 0..GAIN_TEXTS {
        let length = random.within(5..=7);
        let mut value: Vec<u8> = (0..length)
            .map(|_| *random.pick(&GAIN_CHARACTERS[2..12]))
            .collect();
        match random.below(8) {
            0..=3 => value[0] = *random.pick(b"+-"),
            4 => value[random.below(length)] = *random.pick(GAIN_CHARACTERS),
            _ => value[0] = b'0',
        }
        check_gain(&value, &mut tally);
    }
    tally.print("random gain texts of five to seven characters");
}
