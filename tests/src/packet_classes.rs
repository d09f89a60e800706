//! The classes of legal audio packets that a run must have.

use crate::opus::Opus;

/// What follows the TOC byte of the first Opus packet, and whether it is marked as padded.
const KINDS: [&str; 7] = [
    "code 0",
    "code 1",
    "code 2",
    "CBR",
    "padded CBR",
    "VBR",
    "padded VBR",
];
/// Whether it is the only one, or the first of several.
const FORMS: [&str; 2] = ["plain", "self-delimited"];
const CHANNELS: [&str; 2] = ["mono", "stereo"];
const SOUNDS: [&str; 2] = ["not silent", "silent"];

/// A class, and whether the Opus packets of an audio packet are of it.
type Class = (&'static str, fn(&[Opus]) -> bool);

/// The classes of which a reading by the padding, by one frame or by the last Opus packet would tell
/// something else.
const CLASSES: [Class; 13] = [
    ("empty frames and bytes of padding", |all| {
        all[0].is_silent() && has_padding(&all[0])
    }),
    ("empty frames and no padding", |all| {
        all[0].is_silent() && !has_padding(&all[0])
    }),
    ("several frames of CBR of size 0", |all| {
        all[0].is_silent() && all[0].code == 3 && !all[0].variable && all[0].sizes.len() > 1
    }),
    ("the first of several frames empty, another not", |all| {
        all[0].sizes[0] == 0 && !all[0].is_silent()
    }),
    ("the last of several frames empty, another not", |all| {
        all[0].sizes.ends_with(&[0]) && !all[0].is_silent()
    }),
    ("one of several frames empty", |all| {
        all[0].sizes.len() > 1 && empty(&all[0]) == 1
    }),
    ("one of several frames not empty", |all| {
        all[0].sizes.len() > 1 && empty(&all[0]) + 1 == all[0].sizes.len()
    }),
    ("fewer frames than in the last Opus packet", |all| {
        all[0].frames() < last(all).frames()
    }),
    ("more frames than in the last Opus packet", |all| {
        all[0].frames() > last(all).frames()
    }),
    ("silent, and the last Opus packet is not", |all| {
        all[0].is_silent() && !last(all).is_silent()
    }),
    ("not silent, and the last Opus packet is", |all| {
        !all[0].is_silent() && last(all).is_silent()
    }),
    ("mono, and the last Opus packet is stereo", |all| {
        !all[0].stereo && last(all).stereo
    }),
    ("stereo, and the last Opus packet is mono", |all| {
        all[0].stereo && !last(all).stereo
    }),
];

fn has_padding(packet: &Opus) -> bool {
    packet.padding.is_some_and(|length| length > 0)
}

/// How many frames are empty.
fn empty(packet: &Opus) -> usize {
    packet.sizes.iter().filter(|&&size| size == 0).count()
}

fn last(all: &[Opus]) -> &Opus {
    all.last().expect("at least one Opus packet")
}

/// The names of all the classes.
pub fn names() -> Vec<String> {
    let mut names = Vec::new();
    for kind in KINDS {
        for form in FORMS {
            for channels in CHANNELS {
                for sound in SOUNDS {
                    names.push([kind, form, channels, sound].join(", "));
                }
            }
        }
    }
    names.extend(CLASSES.map(|(name, _)| name.to_string()));
    names
}

/// The names of the classes of an audio packet of these Opus packets.
pub fn names_of(all: &[Opus]) -> Vec<String> {
    let first = &all[0];
    let kind = match (first.code, first.variable, first.padding) {
        (0..=2, ..) => KINDS[usize::from(first.code)],
        (_, false, None) => "CBR",
        (_, false, Some(_)) => "padded CBR",
        (_, true, None) => "VBR",
        (_, true, Some(_)) => "padded VBR",
    };
    let form = FORMS[usize::from(all.len() > 1)];
    let channels = CHANNELS[usize::from(first.stereo)];
    let sound = SOUNDS[usize::from(first.is_silent())];
    let mut names = vec![[kind, form, channels, sound].join(", ")];
    let others = CLASSES.iter().filter(|(_, holds)| holds(all));
    names.extend(others.map(|(name, _)| name.to_string()));
    names
}
