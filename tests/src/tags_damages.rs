//! The ways to change a comment header by its rules, and to damage the bytes of one before it is
//! read.

use crate::head::UNFIT_FIELDS;
use crate::inputs::{change, Change};
use crate::ogg::NO_ROOM;
use crate::random::Random;
use crate::tags::{Tags, BAD_TAGS, GAINS, VENDOR};
use crate::tags_inputs::{gain_comment, in_case, put, text, NO_UTF8};

/// What reading and writing answer to a right header: when written, it is up to the room.
pub const RIGHT: &[u32] = &[0, NO_ROOM];

/// What reading and writing answer to a wrong header.
const WRONG: &[u32] = &[BAD_TAGS, UNFIT_FIELDS];

/// What can come of other bytes.
const ANY: &[u32] = &[0, BAD_TAGS];

pub const LEGAL: Change<Tags> = change("a right header", RIGHT, |_, _| ());

/// The ways to change a header that leave it right.
pub const RIGHT_CHANGES: &[Change<Tags>] = &[
    change("one gain of each name", RIGHT, |random, tags| {
        without_gains(tags);
        for name in GAINS {
            let gain = gain_comment(random, name);
            put(random, &mut tags.comments, gain)
        }
    }),
    change("gain names without a sign", RIGHT, |random, tags| {
        for _ in 0..random.within(2..=4) {
            let name = *random.pick(&GAINS);
            let bare = in_case(name, random.number());
            put(random, &mut tags.comments, bare)
        }
    }),
    change("gain names with a byte more", RIGHT, |random, tags| {
        let name = *random.pick(&GAINS);
        let longer = format!("{name}{}=1", *random.pick(&[" ", "S", "_", "}"]));
        for _ in 0..2 {
            put(random, &mut tags.comments, longer.clone().into_bytes())
        }
    }),
    change("a gain after another sign", RIGHT, |random, tags| {
        let name = *random.pick(&GAINS);
        for first in ["=", "a="] {
            put(
                random,
                &mut tags.comments,
                format!("{first}{name}=1").into_bytes(),
            )
        }
    }),
    change("comments exchanged", RIGHT, |_, tags| {
        tags.comments.reverse()
    }),
    change("an empty vendor", RIGHT, |_, tags| tags.vendor.clear()),
];

/// The ways to make a header wrong by one rule only.
pub const WRONG_CHANGES: &[Change<Tags>] = &[
    change("a vendor that is no UTF-8", WRONG, |random, tags| {
        let wrong = *random.pick(&NO_UTF8);
        tags.vendor = [&text(random), wrong, &text(random)].concat()
    }),
    change("a comment that is no UTF-8", WRONG, |random, tags| {
        let wrong = *random.pick(&NO_UTF8);
        let comment = [&text(random), wrong, &text(random)].concat();
        put(random, &mut tags.comments, comment)
    }),
    change("a value that is no UTF-8", WRONG, |random, tags| {
        let wrong = *random.pick(&NO_UTF8);
        let comment = [b"a=", &text(random)[..], wrong].concat();
        put(random, &mut tags.comments, comment)
    }),
    change("a character in two comments", WRONG, |random, tags| {
        let character = *random.pick(&["é", "€", "🍋"]);
        let place = random.within(1..=character.len() - 1);
        let (first, last) = character.as_bytes().split_at(place);
        let at = random.within(0..=tags.comments.len());
        tags.comments.insert(at, [b"a=", first].concat());
        tags.comments.insert(at + 1, last.to_vec())
    }),
    change("a character in two strings", WRONG, |_, tags| {
        tags.vendor.push(0xc3);
        tags.comments.insert(0, vec![0xa9])
    }),
    change("a byte below a space in a name", WRONG, |random, tags| {
        let byte = random.below(0x20) as u8;
        wrong_name(random, tags, &[byte])
    }),
    change("0x1f in a name", WRONG, |random, tags| {
        wrong_name(random, tags, b"\x1f")
    }),
    change("0x7e in a name", WRONG, |random, tags| {
        wrong_name(random, tags, b"~")
    }),
    change("0x7f in a name", WRONG, |random, tags| {
        wrong_name(random, tags, b"\x7f")
    }),
    change("a longer character in a name", WRONG, |random, tags| {
        let character = *random.pick(&["\u{80}", "é", "€", "🍋"]);
        wrong_name(random, tags, character.as_bytes())
    }),
    change("two gains of one name", WRONG, |random, tags| {
        without_gains(tags);
        let name = *random.pick(&GAINS);
        for _ in 0..2 {
            let gain = gain_comment(random, name);
            put(random, &mut tags.comments, gain)
        }
    }),
    change("three gains of one name", WRONG, |random, tags| {
        let name = *random.pick(&GAINS);
        for _ in 0..3 {
            let gain = gain_comment(random, name);
            put(random, &mut tags.comments, gain)
        }
    }),
    change("a gain twice and the other once", WRONG, |random, tags| {
        without_gains(tags);
        let [first, second] = GAINS;
        for name in [first, second, first] {
            let gain = gain_comment(random, name);
            put(random, &mut tags.comments, gain)
        }
    }),
];

/// The ways to damage the bytes of a right header.
pub const DAMAGES: &[Change<Vec<u8>>] = &[
    change(
        "a bit of the signature flipped",
        &[BAD_TAGS],
        |random, packet| packet[random.below(8)] ^= 1 << random.below(8),
    ),
    change("cut anywhere", &[BAD_TAGS], |random, packet| {
        packet.truncate(random.below(packet.len()))
    }),
    change("one byte too few", &[BAD_TAGS], |_, packet| {
        packet.truncate(packet.len() - 1)
    }),
    change("a byte more", &[0], |random, packet| {
        packet.push(random.byte())
    }),
    change("bytes more", &[0], |random, packet| {
        let more = random.within(2..=100);
        packet.extend(random.bytes(more))
    }),
    change("a comment more than counted", &[0], |_, packet| {
        packet.extend(b"\x02\0\0\0\xff\xff")
    }),
    change("a byte changed", ANY, |random, packet| {
        let place = random.below(packet.len());
        packet[place] ^= random.within(1..=255) as u8
    }),
    change(
        "a bit after the vendor's length flipped",
        ANY,
        |random, packet| {
            let place = random.within(VENDOR..=packet.len() - 1);
            packet[place] ^= 1 << random.below(8)
        },
    ),
    change("bytes exchanged", ANY, |random, packet| {
        let (one, other) = (random.below(packet.len()), random.below(packet.len()));
        packet.swap(one, other)
    }),
    change("another length of the vendor", ANY, |random, packet| {
        other_field(random, packet, 8)
    }),
    change("another count", ANY, |random, packet| {
        let vendor = field(packet, 8) as usize;
        other_field(random, packet, VENDOR + vendor)
    }),
    change(
        "another length of the first comment",
        ANY,
        |random, packet| {
            let vendor = field(packet, 8) as usize;
            if packet.len() >= VENDOR + vendor + 8 {
                other_field(random, packet, VENDOR + vendor + 4)
            }
        },
    ),
    change("random bytes", &[BAD_TAGS], |random, packet| {
        let length = random.below(300);
        *packet = random.bytes(length)
    }),
    change("random bytes after the signature", ANY, |random, packet| {
        let length = random.within(8..=60);
        *packet = random.bytes(length);
        packet[..8].copy_from_slice(b"OpusTags");
        for byte in &mut packet[8..] {
            *byte &= *random.pick(&[0, 1, 7, 0x7f])
        }
    }),
];

/// Values of a field of 32 bits close to a right one: its neighbours and those of 2^32.
pub fn beside(right: u32) -> Vec<u32> {
    let mut values: Vec<u32> = (0..64).flat_map(|k| [k, u32::MAX - k]).collect();
    for bit in 0..32 {
        let power = 1 << bit;
        values.extend([power, power - 1, u32::MAX - power, right ^ power]);
    }
    for k in 0..8 {
        values.extend([right.wrapping_add(k), right.wrapping_sub(k)])
    }
    values
}

/// The number in a packet's four bytes from a place on.
pub fn field(packet: &[u8], place: usize) -> u32 {
    let bytes = packet[place..].first_chunk().expect("four bytes");
    u32::from_le_bytes(*bytes)
}

pub fn put_field(packet: &mut [u8], place: usize, value: u32) {
    packet[place..][..4].copy_from_slice(&value.to_le_bytes())
}

fn other_field(random: &mut Random, packet: &mut [u8], place: usize) {
    let value = *random.pick(&beside(field(packet, place)));
    put_field(packet, place, value)
}

/// A comment with this in its name.
fn wrong_name(random: &mut Random, tags: &mut Tags, wrong: &[u8]) {
    let mut name = in_case("TITLE", random.number());
    let place = random.within(0..=name.len());
    name.splice(place..place, wrong.iter().copied());
    name.push(b'=');
    name.extend(text(random));
    put(random, &mut tags.comments, name)
}

/// Leaves out the comments that have a name that may occur once only.
fn without_gains(tags: &mut Tags) {
    let is_gain = |comment: &Vec<u8>| {
        GAINS.iter().any(|gain| {
            let start = comment.get(..gain.len()).unwrap_or_default();
            start.eq_ignore_ascii_case(gain.as_bytes()) && comment.get(gain.len()) == Some(&b'=')
        })
    };
    tags.comments.retain(|comment| !is_gain(comment))
}
