//! Comment headers of all shapes for the random runs, a fixed set of them, and texts that are no
//! UTF-8.

use crate::random::Random;
use crate::tags::{Tags, GAINS};

/// Characters where the length of their UTF-8 changes, and those next to the surrogates.
const ENDS: [char; 14] = [
    '\0',
    ' ',
    '=',
    'a',
    '}',
    '~',
    '\u{7f}',
    '\u{80}',
    '\u{7ff}',
    '\u{800}',
    '\u{d7ff}',
    '\u{e000}',
    '\u{10000}',
    '\u{10ffff}',
];

/// Bytes that are no UTF-8, wherever whole characters are before and after them.
pub const NO_UTF8: [&[u8]; 26] = [
    b"\x80",
    b"\xbf",
    b"\xa9\xc3",
    b"\xc3",
    b"\xe2\x82",
    b"\xe2",
    b"\xf0\x9f\x8d",
    b"\xf0\x9f",
    b"\xc0\x80",
    b"\xc1\xbf",
    b"\xe0\x80\x80",
    b"\xe0\x9f\xbf",
    b"\xf0\x80\x80\x80",
    b"\xf0\x8f\xbf\xbf",
    b"\xed\xa0\x80",
    b"\xed\xbf\xbf",
    b"\xed\xa0\xbd\xed\xb8\x80",
    b"\xf4\x90\x80\x80",
    b"\xf5\x80\x80\x80",
    b"\xf7\xbf\xbf\xbf",
    b"\xf8\x88\x80\x80\x80",
    b"\xfc\x84\x80\x80\x80\x80",
    b"\xfe",
    b"\xff",
    b"\xe2\x28\xa1",
    b"\xf0\x28\x8c\xbc",
];

/// The characters of gain texts, and a space.
pub const GAIN_CHARACTERS: &[u8; 13] = b"+-0123456789 ";

/// A right header.
pub fn tags(random: &mut Random) -> Tags {
    let count = match random.below(16) {
        0..=1 => 0,
        2 => random.below(40),
        _ => random.within(1..=4),
    };
    let mut comments: Vec<_> = (0..count).map(|_| comment(random)).collect();
    for name in GAINS {
        if random.one_in(3) {
            let gain = gain_comment(random, name);
            put(random, &mut comments, gain);
        }
    }
    Tags {
        vendor: text(random),
        comments,
    }
}

/// A right header whose comments are mostly gains.
pub fn gain_tags(random: &mut Random) -> Tags {
    let count = random.within(1..=4);
    let mut tags = Tags {
        vendor: b"v".to_vec(),
        comments: Vec::new(),
    };
    for _ in 0..count {
        let name = name(random);
        let comment = match random.below(8) {
            0 => comment(random),
            _ => [&name, &b"="[..], &gain_text(random)].concat(),
        };
        tags.comments.push(comment);
    }
    tags
}

/// Puts a comment at any place.
pub fn put(random: &mut Random, comments: &mut Vec<Vec<u8>>, comment: Vec<u8>) {
    let place = random.within(0..=comments.len());
    comments.insert(place, comment);
}

/// A right comment that has none of the names that may occur once only.
fn comment(random: &mut Random) -> Vec<u8> {
    let (name, value) = (name(random), text(random));
    match random.below(16) {
        0 => Vec::new(),
        1 => b"=".to_vec(),
        2 => [b"=", &value[..]].concat(),
        3 => random.pick(&GAINS).as_bytes().to_vec(),
        4..=5 => value.into_iter().filter(|&byte| byte != b'=').collect(),
        6..=7 => [&name, &b"="[..], &gain_text(random)].concat(),
        8 => [&name, &b"=="[..], &value].concat(),
        _ => [&name, &b"="[..], &value].concat(),
    }
}

/// A comment of one of the names that may occur once only, in any case of its letters.
pub fn gain_comment(random: &mut Random, name: &str) -> Vec<u8> {
    let mut comment = in_case(name, random.number());
    comment.push(b'=');
    comment.extend(match random.one_in(4) {
        true => text(random),
        false => gain_text(random),
    });
    comment
}

/// A name with its letters in lower case where the bits of a number are ones.
pub fn in_case(name: &str, small: u64) -> Vec<u8> {
    let mut bits = (0..64).map(|place| small >> place & 1 == 1);
    let mut cased = name.as_bytes().to_vec();
    for letter in cased.iter_mut().filter(|byte| byte.is_ascii_alphabetic()) {
        if bits.next() == Some(true) {
            *letter = letter.to_ascii_lowercase();
        }
    }
    cased
}

/// A right name that may occur any number of times: some are nearly one that may not.
fn name(random: &mut Random) -> Vec<u8> {
    let gain = random.pick(&GAINS).as_bytes();
    match random.below(8) {
        0 => [gain, b" "].concat(),
        1 => gain[..gain.len() - 1].to_vec(),
        2 => [b"_", gain].concat(),
        3 => b"ARTIST".to_vec(),
        _ => {
            let length = random.below(12);
            (0..length).map(|_| name_byte(random)).collect()
        }
    }
}

/// A byte that a name may have, often one at the ends.
fn name_byte(random: &mut Random) -> u8 {
    match random.below(8) {
        0 => 0x20,
        1 => 0x7d,
        2 => *random.pick(b"@AZ[`az{<>"),
        _ => match random.within(0x20..=0x7d) as u8 {
            b'=' => b'-',
            byte => byte,
        },
    }
}

/// Text of up to 11 characters.
pub fn text(random: &mut Random) -> Vec<u8> {
    let length = random.below(12);
    let text: String = (0..length).map(|_| character(random)).collect();
    text.into_bytes()
}

/// Any character: often a plain one, or one where the length of its UTF-8 changes.
fn character(random: &mut Random) -> char {
    match random.below(4) {
        0 => *random.pick(&ENDS),
        1 => char::from_u32(random.below(0x11_0000) as u32).unwrap_or('\u{fffd}'),
        _ => random.within(0x20..=0x7e) as u8 as char,
    }
}

/// A text that is mostly a gain.
fn gain_text(random: &mut Random) -> Vec<u8> {
    let number = match random.below(4) {
        0 => *random.pick(&[0, 1, 9, 10, 255, 32766, 32767]),
        _ => random.below(32768),
    };
    let sign = *random.pick(&["", "", "+", "-"]);
    let text = match random.below(8) {
        0 => format!("{sign}{number:05}"),
        1 => format!("{number:06}"),
        2 => "-32768".to_string(),
        3 if random.one_in(2) => return wrong_gain(random),
        _ => format!("{sign}{number}"),
    };
    text.into_bytes()
}

/// A text that is hardly ever a gain.
fn wrong_gain(random: &mut Random) -> Vec<u8> {
    let known: [&[u8]; 14] = [
        b"",
        b"+",
        b"-",
        b"32768",
        b"+32768",
        b"-32769",
        b"65536",
        b"999999",
        b"0000000",
        b"-000000",
        b"+-1",
        b" 1",
        b"1 ",
        "١".as_bytes(),
    ];
    if random.one_in(2) {
        return random.pick(&known).to_vec();
    }
    let length = random.below(8);
    (0..length).map(|_| *random.pick(GAIN_CHARACTERS)).collect()
}

/// Headers of each shape, short enough to be cut and changed at every place.
pub fn legal_set() -> Vec<Tags> {
    let ends: String = ENDS.iter().collect();
    let shapes: [(&str, &[&str]); 8] = [
        ("", &[]),
        ("v", &[]),
        ("", &[""]),
        ("libopus 1.4", &["", "=", "==", "a=b"]),
        ("é", &["TITLE=€🍋", "no name €", "R128_TRACK_GAIN"]),
        ("", &["R128_TRACK_GAIN=-32768", "r128_album_gain=+32767"]),
        ("\u{10ffff}", &["R128_ALBUM_GAIN=x", "R128_ALBUM_GAIN"]),
        (&ends, &["n=\u{d7ff}\u{e000}", " }=1"]),
    ];
    shapes
        .into_iter()
        .map(|(vendor, comments)| Tags {
            vendor: vendor.as_bytes().to_vec(),
            comments: comments.iter().map(|c| c.as_bytes().to_vec()).collect(),
        })
        .collect()
}
