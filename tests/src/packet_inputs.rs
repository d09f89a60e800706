//! Legal Opus packets of all shapes for the random runs, and audio packets made of them.

use crate::opus::{
    frame_samples, Code, Contents, Form, Packet, Padding, LARGEST_FRAME, MOST_SAMPLES,
};
use crate::random::Random;
use std::borrow::Borrow;

/// The sizes of frames where a coded length or a rule changes.
const EDGES: [usize; 12] = [1, 250, 251, 252, 253, 254, 255, 256, 1019, 1020, 1274, 1275];

/// An audio packet: the bytes of its Opus packets and the number of streams that the reader is
/// told.
pub struct Audio {
    pub packets: Vec<Vec<u8>>,
    pub streams: u64,
    /// What is told of it before any damage.
    pub contents: Contents,
}

impl Audio {
    /// An audio packet of these Opus packets.
    pub fn of(packets: &[impl Borrow<Packet>], random: &mut Random) -> Audio {
        let streams = packets.len() as u64;
        let form = |place| Form::at(place, streams);
        Audio {
            packets: (0..)
                .zip(packets)
                .map(|(place, packet)| packet.borrow().encode(form(place), random))
                .collect(),
            streams,
            contents: packets[0].borrow().contents(),
        }
    }

    pub fn bytes(&self) -> Vec<u8> {
        self.packets.concat()
    }

    /// The form that is due at a place.
    pub fn form(&self, place: usize) -> Form {
        Form::at(place as u64, self.packets.len() as u64)
    }
}

/// A legal audio packet of one stream, of a few or of many.
pub fn audio(random: &mut Random) -> Audio {
    let streams = match random.below(8) {
        0..=3 => 1,
        4..=6 => random.within(2..=8),
        _ => random.within(1..=255),
    };
    audio_of(random, streams)
}

/// A legal audio packet of so many streams.
pub fn audio_of(random: &mut Random, streams: usize) -> Audio {
    let samples = samples(random);
    let packets: Vec<Packet> = (0..streams)
        .map(|_| {
            let largest = largest_frame(random, streams);
            packet(random, samples, largest)
        })
        .collect();
    Audio::of(&packets, random)
}

/// A length in samples that a legal Opus packet can have.
pub fn samples(random: &mut Random) -> u64 {
    let frame = frame_samples(config(random));
    let most = (MOST_SAMPLES / frame) as usize;
    let frames = match random.below(8) {
        0..=2 => 1,
        3..=4 => 2,
        5 => most,
        _ => random.within(1..=most),
    };
    frame * frames as u64
}

/// A legal Opus packet of this length, of frames up to a size.
pub fn packet(random: &mut Random, samples: u64, largest: usize) -> Packet {
    let config = loop {
        let config = config(random);
        if samples.is_multiple_of(frame_samples(config)) {
            break config;
        }
    };
    let count = (samples / frame_samples(config)) as usize;
    let code = code(random, count);
    Packet {
        config,
        stereo: random.one_in(2),
        code,
        frames: sizes(random, code, count, largest),
    }
}

pub fn config(random: &mut Random) -> u8 {
    random.below(32) as u8
}

/// Padding of any kind of length, or none.
pub fn padding(random: &mut Random) -> Option<Padding> {
    let (full, last) = match random.below(12) {
        0..=5 => return None,
        6 => (0, random.below(4)),
        7 => (0, random.below(255)),
        8 => (0, 254),
        9 => (1, 0),
        10 => (1, random.below(255)),
        _ => (random.below(6), random.below(255)),
    };
    Some(Padding {
        full,
        last: last as u8,
    })
}

/// A code that so many frames can have.
pub fn code(random: &mut Random, count: usize) -> Code {
    match (count, random.below(4)) {
        (1, 0..=1) => Code::One,
        (2, 0) => Code::TwoEqual,
        (2, 1) => Code::TwoSized,
        (_, choice) if choice % 2 == 0 => Code::Cbr(padding(random)),
        _ => Code::Vbr(padding(random)),
    }
}

/// The sizes of so many frames that a code can have.
pub fn sizes(random: &mut Random, code: Code, count: usize, largest: usize) -> Vec<usize> {
    match code {
        Code::TwoSized | Code::Vbr(_) => (0..count).map(|_| size(random, largest)).collect(),
        Code::One | Code::TwoEqual | Code::Cbr(_) => vec![size(random, largest); count],
    }
}

fn size(random: &mut Random, largest: usize) -> usize {
    let size = match random.below(8) {
        0..=1 => 0,
        2..=4 => random.below(8),
        5 => *random.pick(&EDGES),
        6 => random.below(300),
        _ => random.within(0..=LARGEST_FRAME),
    };
    size.min(largest)
}

/// Large frames are rarer where there are many streams, for the time they need.
fn largest_frame(random: &mut Random, streams: usize) -> usize {
    if streams <= 4 || random.one_in(16) {
        LARGEST_FRAME
    } else {
        3
    }
}
