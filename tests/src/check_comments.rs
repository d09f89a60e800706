//! Comment headers for the random runs of checking: with tags of ReplayGain, and with much that is nearly
//! one.

use crate::check::NAMES;
use crate::inputs::{change, Change};
use crate::random::Random;
use crate::tags::{encode, Tags};
use crate::tags_inputs::{in_case, put, tags, text};

/// Names like those of ReplayGain that are none of the four.
const OTHER_NAMES: [&[u8]; 8] = [
    b"REPLAYGAIN",
    b"REPLAYGAIN_",
    b"REPLAYGAIN_TRACK",
    b"REPLAYGAIN_TRACK_RANGE",
    b"REPLAYGAIN_ALBUM_MINMAX",
    b"REPLAYGAIN_REFERENCE_LOUDNESS",
    b"TRACK_GAIN",
    b"ALBUM_PEAK",
];

/// A comment: its name, and what comes after it, from the "=" on.
pub struct Named {
    name: Vec<u8>,
    rest: Vec<u8>,
}

/// Ways to make a tag nearly one.
pub const NEAR: &[Change<Named>] = &[
    change("only a name", &[], |_, tag| tag.rest.clear()),
    change("no = after the name", &[], |_, tag| {
        tag.rest = b": -7.03 dB".to_vec();
    }),
    change("the last letter missing", &[], |_, tag| {
        tag.name.pop();
    }),
    change("the first letter missing", &[], |_, tag| {
        tag.name.remove(0);
    }),
    change("a character after the name", &[], |random, tag| {
        tag.name.push(*random.pick(b" _S-0}"));
    }),
    change("a character before the name", &[], |random, tag| {
        tag.name.insert(0, *random.pick(b" _X-0}"));
    }),
    change("another letter", &[], |random, tag| {
        let place = random.below(tag.name.len());
        let old = tag.name[place];
        let mut others = (0x20..=0x7d).filter(|byte| !old.eq_ignore_ascii_case(byte));
        let skipped = random.below(90);
        tag.name[place] = others.nth(skipped).expect("other letters");
    }),
    change("another name", &[], |random, tag| {
        tag.name = random.pick(&OTHER_NAMES).to_vec();
    }),
    change("a tag as a value", &[], |_, tag| {
        tag.name.splice(0..0, *b"COMMENT=");
    }),
    change("a tag after an empty name", &[], |_, tag| {
        tag.name.insert(0, b'=');
    }),
];

/// A comment packet: the header, and bytes after its last comment.
pub struct Packet {
    tags: Tags,
    after: Vec<u8>,
}

/// Ways to put a tag where no comment is.
pub const ELSEWHERE: &[Change<Packet>] = &[
    change("a tag as the vendor", &[], |random, packet| {
        packet.tags.vendor = tag(random);
    }),
    change("a tag after the last comment", &[], |random, packet| {
        let tag = tag(random);
        packet.after.extend((tag.len() as u32).to_le_bytes());
        packet.after.extend(tag);
    }),
];

/// A comment packet, and the ways that were taken.
pub struct Comments {
    pub bytes: Vec<u8>,
    pub ways: Vec<&'static str>,
}

fn any_tag(random: &mut Random) -> Named {
    let small = [0, u64::MAX, random.number(), random.number()];
    let known = *random.pick(&NAMES);
    let name = in_case(known, *random.pick(&small));
    let value = match random.below(4) {
        0 => Vec::new(),
        1 => text(random),
        _ => random
            .pick(&["-7.03 dB", "0.988553", "="])
            .as_bytes()
            .to_vec(),
    };
    let rest = [b"=", &value[..]].concat();
    Named { name, rest }
}

/// A comment of one of the four names.
fn tag(random: &mut Random) -> Vec<u8> {
    let Named { name, rest } = any_tag(random);
    [name, rest].concat()
}

/// A header without tags: mostly of few bytes, else of any, or with a vendor so long that the comments
/// begin on one page and end on another.
fn plain(random: &mut Random) -> Tags {
    let vendor = match random.below(4) {
        0 => return tags(random),
        1 => vec![b'v'; random.within(190..=280)],
        _ => text(random),
    };
    let count = random.below(3);
    let comments = (0..count).map(|_| random.pick(&["", "=", "ARTIST=A", "x"]));
    Tags {
        vendor,
        comments: comments.map(|text| text.as_bytes().to_vec()).collect(),
    }
}

/// A comment packet, with tags of ReplayGain or without.
pub fn comments(random: &mut Random, is_tagged: bool) -> Comments {
    let mut packet = Packet {
        tags: plain(random),
        after: Vec::new(),
    };
    let mut ways = Vec::new();
    for _ in 0..random.below(3) {
        let (way, mut near) = (random.pick(NEAR), any_tag(random));
        (way.apply)(random, &mut near);
        let comment = [near.name, near.rest].concat();
        put(random, &mut packet.tags.comments, comment);
        ways.push(way.name);
    }
    if random.one_in(4) {
        let way = random.pick(ELSEWHERE);
        (way.apply)(random, &mut packet);
        ways.push(way.name);
    }
    if is_tagged {
        for _ in 0..*random.pick(&[1, 1, 1, 1, 2, 4]) {
            let tag = tag(random);
            put(random, &mut packet.tags.comments, tag);
        }
    }
    if random.one_in(8) {
        let more = random.within(1..=600);
        packet.after.extend(random.bytes(more));
    }
    let bytes = [encode(&packet.tags), packet.after].concat();
    Comments { bytes, ways }
}
