//! A fixed set of legal audio packets, of every code alone and next to every other.

use crate::opus::{Code, Packet, Padding};
use crate::packet_inputs::Audio;
use crate::random::Random;

pub const fn padding(full: usize, last: u8) -> Option<Padding> {
    Some(Padding { full, last })
}

pub fn packet(config: u8, code: Code, frames: &[usize]) -> Packet {
    Packet {
        config,
        stereo: false,
        code,
        frames: frames.to_vec(),
    }
}

/// One packet of each code, with and without padding, of frames of these sizes. All of them have
/// 960 samples, so that they can be in one audio packet.
pub fn one_of_each_code(sizes: [usize; 8]) -> [Packet; 7] {
    let first = sizes[0];
    [
        packet(1, Code::One, &[first]),
        packet(12, Code::TwoEqual, &[first; 2]),
        packet(4, Code::TwoSized, &sizes[..2]),
        packet(17, Code::Cbr(None), &[first; 4]),
        packet(31, Code::Cbr(padding(1, 3)), &[first]),
        packet(20, Code::Vbr(None), &sizes),
        packet(21, Code::Vbr(padding(0, 9)), &sizes[..4]),
    ]
}

/// Audio packets of each code alone, of each two codes, and of all of them in each rotation.
pub fn legal_set(random: &mut Random) -> Vec<Audio> {
    let mut set = Vec::new();
    for sizes in [[0; 8], [252, 0, 1, 255, 251, 1275, 0, 300]] {
        for packet in &one_of_each_code(sizes) {
            set.push(Audio::of(&[packet], random));
        }
    }
    let small = one_of_each_code([3, 0, 5, 1, 2, 253, 0, 4]);
    for first in &small {
        for second in &small {
            set.push(Audio::of(&[first, second], random));
        }
    }
    let mut all: Vec<&Packet> = small.iter().collect();
    for _ in 0..7 {
        all.rotate_left(1);
        set.push(Audio::of(&all, random));
    }
    set
}
