//! Legal audio packets whose first Opus packet has any number of frames, each as often as another, and
//! often empty ones.

use crate::opus::{frame_samples, Code, Packet, MOST_FRAMES, MOST_SAMPLES};
use crate::packet_inputs::{code, config, packet, sizes, Audio};
use crate::random::Random;

/// The size in bytes of the largest frame, for the time that large ones need.
const LARGEST: usize = 8;

/// A legal audio packet of one stream or of a few.
pub fn shaped(random: &mut Random) -> Audio {
    let streams = match random.below(4) {
        0..=1 => 1,
        2 => 2,
        _ => random.within(2..=6),
    };
    shaped_of(random, streams)
}

/// A legal audio packet of so many streams. All its Opus packets have the same samples, but mostly not
/// the same frames.
pub fn shaped_of(random: &mut Random, streams: usize) -> Audio {
    let first = first(random);
    let samples = first.contents().samples;
    let mut packets = vec![first];
    packets.resize_with(streams, || packet(random, samples, LARGEST));
    Audio::of(&packets, random)
}

fn first(random: &mut Random) -> Packet {
    let count = match random.below(8) {
        0..=1 => 1,
        2..=4 => 2,
        _ => random.within(1..=MOST_FRAMES),
    };
    let config = loop {
        let config = config(random);
        if count as u64 * frame_samples(config) <= MOST_SAMPLES {
            break config;
        }
    };
    let code = code(random, count);
    Packet {
        config,
        stereo: random.one_in(2),
        code,
        frames: frames(random, code, count),
    }
}

/// The sizes of so many frames: all empty, all but one, one, or any.
fn frames(random: &mut Random, code: Code, count: usize) -> Vec<usize> {
    let (place, size) = (random.below(count), random.within(1..=LARGEST));
    let (most, one) = match random.below(4) {
        0 => (0, 0),
        1 => (0, size),
        2 => (size, 0),
        _ => return sizes(random, code, count, LARGEST),
    };
    let mut frames = vec![most; count];
    if matches!(code, Code::TwoSized | Code::Vbr(_)) {
        frames[place] = one;
    }
    frames
}
