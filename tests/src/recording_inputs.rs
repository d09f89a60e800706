//! The packets of recordings: an identification header, a comment header and audio packets of one
//! number of streams.

use crate::head::Head;
use crate::head_inputs::head_to_read;
use crate::opus::{Code, Packet, Padding, LARGEST_FRAME};
use crate::packet_inputs::{audio_of, config, Audio};
use crate::packet_shapes::shaped_of;
use crate::random::Random;
use crate::tags::{encode, LONGEST};
use crate::tags_inputs::tags;

/// The lengths in bytes where the lacing values or a rule change.
const LENGTHS: [usize; 8] = [254, 255, 256, 510, 765, 1020, 2550, 5100];
const LONG_LENGTHS: [usize; 4] = [LONGEST, LONGEST - 1, 61_200, 61_199];

/// A packet and its length in samples.
pub struct Sound {
    pub bytes: Vec<u8>,
    pub samples: u64,
}

impl Sound {
    fn of(audio: &Audio) -> Sound {
        Sound {
            bytes: audio.bytes(),
            samples: audio.contents.samples,
        }
    }
}

/// A legal header of any version that is read, mostly of few streams and of a usual pre-skip.
pub fn head_of_stream(random: &mut Random) -> Head {
    let most_streams = if random.one_in(12) { 255 } else { 6 };
    let mut head = loop {
        let head = head_to_read(random);
        if head.streams <= most_streams {
            break head;
        }
    };
    match random.below(4) {
        0 => head.pre_skip = *random.pick(&[0, 1, 312, 3840]),
        1 => head.pre_skip = random.below(8_000) as u64,
        _ => (),
    }
    head
}

/// A right comment packet, sometimes with bytes after it.
pub fn comment_packet(random: &mut Random) -> Vec<u8> {
    let mut bytes = encode(&tags(random));
    let length = match random.below(64) {
        0 => *random.pick(&LONG_LENGTHS),
        1..=8 => *random.pick(&LENGTHS),
        9..=16 => bytes.len() + random.below(3_000),
        _ => return bytes,
    };
    if length > bytes.len() {
        let more = random.bytes(length - bytes.len());
        bytes.extend(more);
    }
    bytes
}

/// The audio packets of a recording.
pub fn sounds(random: &mut Random, streams: usize) -> Vec<Sound> {
    let (count, kind): (usize, fn(&mut Random, usize) -> Sound) = match random.below(32) {
        0 => (random.within(200..=600) / streams, tiny),
        1..=3 => (random.below(3), sound),
        4 => (random.within(1..=3), long),
        5..=8 => (random.within(1..=6), padded),
        9..=14 => (random.within(1..=12), tiny),
        15..=20 => (random.within(1..=12), framed),
        _ => (random.within(1..=10), sound),
    };
    (0..count).map(|_| kind(random, streams)).collect()
}

/// A legal audio packet of any kind that a reader takes.
pub fn sound(random: &mut Random, streams: usize) -> Sound {
    taken(random, streams, audio_of)
}

/// One whose Opus packets have any numbers of frames.
fn framed(random: &mut Random, streams: usize) -> Sound {
    taken(random, streams, shaped_of)
}

/// An audio packet that is not longer than a reader takes.
fn taken(random: &mut Random, streams: usize, make: fn(&mut Random, usize) -> Audio) -> Sound {
    loop {
        let sound = Sound::of(&make(random, streams));
        if sound.bytes.len() <= LONGEST {
            return sound;
        }
    }
}

/// A legal audio packet of frames of hardly any bytes.
pub fn tiny(random: &mut Random, streams: usize) -> Sound {
    let (config, size) = (config(random), random.below(4));
    let packet = |_| Packet {
        config,
        stereo: random.one_in(2),
        code: Code::One,
        frames: vec![size],
    };
    let packets: Vec<Packet> = (0..streams).map(packet).collect();
    Sound::of(&Audio::of(&packets, random))
}

/// A legal audio packet of one of the lengths where something changes.
fn padded(random: &mut Random, streams: usize) -> Sound {
    let length = *random.pick(&LENGTHS);
    of_length(random, streams, length)
}

fn long(random: &mut Random, streams: usize) -> Sound {
    let length = *random.pick(&LONG_LENGTHS);
    of_length(random, streams, length)
}

/// A legal audio packet of so many bytes: the last of its Opus packets is padded. It is longer where
/// there are too many streams.
pub fn of_length(random: &mut Random, streams: usize, length: usize) -> Sound {
    let config = config(random);
    let plain = |code, size| Packet {
        config,
        stereo: false,
        code,
        frames: vec![size],
    };
    let before = 2 * (streams - 1);
    let size = random.below(length.saturating_sub(before + 3).min(LARGEST_FRAME) + 1);
    let padding = length.saturating_sub(before + 3 + size);
    let padding = Padding {
        full: padding / 255,
        last: (padding % 255) as u8,
    };
    let mut packets: Vec<Packet> = (1..streams).map(|_| plain(Code::One, 0)).collect();
    packets.push(plain(Code::Cbr(Some(padding)), size));
    Sound::of(&Audio::of(&packets, random))
}
