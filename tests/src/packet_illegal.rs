//! Opus packets that break one rule of RFC 6716 only.

use crate::opus::{frame_samples, Code, Form, Packet, Padding, LARGEST_FRAME, MOST_SAMPLES};
use crate::packet_inputs::{config, padding};
use crate::random::Random;

/// The most frames that are legal in every configuration from 16 on.
const FEW_FRAMES: usize = 6;

/// A packet that is illegal whatever follows it: of no frames or of too many.
pub fn anywhere(random: &mut Random, form: Form) -> Vec<u8> {
    if random.one_in(2) {
        no_frames(random, form)
    } else {
        too_long(random, form)
    }
}

/// A packet of one frame of no bytes, the count then set to 0.
fn no_frames(random: &mut Random, form: Form) -> Vec<u8> {
    let mut bytes = Packet {
        config: config(random),
        stereo: random.one_in(2),
        code: code_three(random),
        frames: vec![0],
    }
    .encode(form, random);
    bytes[1] &= 0xc0;
    bytes
}

fn too_long(random: &mut Random, form: Form) -> Vec<u8> {
    let config = config(random);
    let most = (MOST_SAMPLES / frame_samples(config)) as usize;
    let frames = random.within(most + 1..=63);
    Packet {
        config,
        stereo: random.one_in(2),
        code: code_three(random),
        frames: vec![random.below(4); frames],
    }
    .encode(form, random)
}

/// A packet of code 1 whose two frames cannot be of one size.
pub fn odd(random: &mut Random) -> Vec<u8> {
    let size = random.below(LARGEST_FRAME);
    plain(random, Code::TwoEqual, vec![size, size + 1])
}

/// A packet of frames above 1,275 bytes, or with such a last one.
pub fn too_large(random: &mut Random) -> Vec<u8> {
    let (size, small) = (LARGEST_FRAME + random.within(1..=3), random.below(300));
    let count = random.within(1..=FEW_FRAMES);
    let padding = padding(random);
    let (code, sizes) = match random.below(5) {
        0 => (Code::One, vec![size]),
        1 => (Code::TwoEqual, vec![size; 2]),
        2 => (Code::TwoSized, vec![small, size]),
        3 => (Code::Cbr(padding), vec![size; count]),
        _ => (
            Code::Vbr(padding),
            [vec![small; count - 1], vec![size]].concat(),
        ),
    };
    plain(random, code, sizes)
}

/// A CBR packet whose bytes are no multiple of the number of frames.
pub fn left_over(random: &mut Random) -> Vec<u8> {
    let count = random.within(2..=FEW_FRAMES);
    let mut sizes = vec![random.below(LARGEST_FRAME - FEW_FRAMES); count];
    sizes[0] += random.within(1..=count - 1);
    let code = Code::Cbr(padding(random));
    plain(random, code, sizes)
}

/// A packet whose coded lengths, with the padding, leave a last frame of no bytes, then cut by a
/// byte.
pub fn lengths_past_the_end(random: &mut Random) -> Vec<u8> {
    let (code, count) = match random.one_in(2) {
        true => (Code::TwoSized, 2),
        false => (Code::Vbr(padding(random)), random.within(2..=FEW_FRAMES)),
    };
    let mut sizes = vec![random.within(1..=LARGEST_FRAME); count];
    sizes[count - 1] = 0;
    let mut bytes = plain(random, code, sizes);
    bytes.pop();
    bytes
}

/// A packet of frames of no bytes whose padding reaches the end, then cut by a byte.
pub fn padding_past_the_end(random: &mut Random) -> Vec<u8> {
    let padding = Padding {
        full: random.below(3),
        last: random.within(1..=254) as u8,
    };
    let code = random.pick(&[Code::Cbr, Code::Vbr])(Some(padding));
    let count = random.within(1..=FEW_FRAMES);
    let mut bytes = plain(random, code, vec![0; count]);
    bytes.pop();
    bytes
}

/// The bytes of a packet of few frames that are not too long.
fn plain(random: &mut Random, code: Code, frames: Vec<usize>) -> Vec<u8> {
    Packet {
        config: random.within(16..=31) as u8,
        stereo: random.one_in(2),
        code,
        frames,
    }
    .encode(Form::Plain, random)
}

fn code_three(random: &mut Random) -> Code {
    random.pick(&[Code::Cbr, Code::Vbr])(padding(random))
}
