//! Reading and building of Opus packets, straight from RFC 6716 (section 3 and Appendix B) and the
//! rules in docs/PROMISES.md. Written for clearness and independent of the library: its answers are
//! what the library's are held to.

use crate::random::Random;

/// The number of streams is not from 1 to 255.
pub const BAD_STREAMS: u32 = 13;
/// One of the Opus packets is illegal, or there are no bytes at all.
pub const ILLEGAL_PACKET: u32 = 15;
/// The Opus packets are legal but of different lengths in samples.
pub const MIXED_LENGTHS: u32 = 16;

/// The size in bytes of the largest frame.
pub const LARGEST_FRAME: usize = 1275;
/// The length of the longest Opus packet, 120 ms.
pub const MOST_SAMPLES: u64 = 5760;
/// The number of frames in it if they are the shortest, of 2.5 ms.
pub const MOST_FRAMES: usize = 48;

/// How an Opus packet ends: where the bytes end, or where one more coded length says.
#[derive(Clone, Copy)]
pub enum Form {
    Plain,
    SelfDelimited,
}

impl Form {
    /// The form of the Opus packet at a place, from 0, in an audio packet of so many streams.
    pub fn at(place: u64, streams: u64) -> Form {
        if place + 1 == streams {
            Form::Plain
        } else {
            Form::SelfDelimited
        }
    }
}

/// What follows the TOC byte.
#[derive(Clone, Copy, Debug)]
pub enum Code {
    /// Code 0: one frame.
    One,
    /// Code 1: two frames of one size.
    TwoEqual,
    /// Code 2: two frames, the first with a coded length.
    TwoSized,
    /// Code 3: a count of frames, all of one size.
    Cbr(Option<Padding>),
    /// Code 3: a count of frames, all but the last with a coded length.
    Vbr(Option<Padding>),
}

/// Padding by its coded length: so many bytes of 255 and a last one below 255.
#[derive(Clone, Copy, Debug)]
pub struct Padding {
    pub full: usize,
    pub last: u8,
}

impl Padding {
    pub fn length(self) -> usize {
        254 * self.full + usize::from(self.last)
    }
}

/// An Opus packet of at least one frame to be built. It is up to the caller that it is legal: the
/// frames can be too many, too large or of different sizes where the code knows one size only.
#[derive(Debug)]
pub struct Packet {
    pub config: u8,
    pub stereo: bool,
    pub code: Code,
    /// The sizes of the frames in bytes.
    pub frames: Vec<usize>,
}

impl Packet {
    /// What is told of an audio packet that begins with this one, if it is legal.
    pub fn contents(&self) -> Contents {
        Contents {
            samples: self.frames.len() as u64 * frame_samples(self.config),
            frames: self.frames.len() as u64,
            stereo: self.stereo,
            silent: self.frames.iter().all(|&size| size == 0),
        }
    }

    /// The bytes of the packet; those of the frames and of the padding are random.
    pub fn encode(&self, form: Form, random: &mut Random) -> Vec<u8> {
        let (code, variable, padding) = match self.code {
            Code::One => (0, false, None),
            Code::TwoEqual => (1, false, None),
            Code::TwoSized => (2, true, None),
            Code::Cbr(padding) => (3, false, padding),
            Code::Vbr(padding) => (3, true, padding),
        };
        let count = self.frames.len();
        let mut bytes = vec![self.config << 3 | u8::from(self.stereo) << 2 | code];
        if code == 3 {
            let marks = u8::from(variable) << 7 | u8::from(padding.is_some()) << 6;
            bytes.push(marks | count as u8);
        }
        if let Some(padding) = padding {
            bytes.resize(bytes.len() + padding.full, 255);
            bytes.push(padding.last);
        }
        let last = count - 1;
        let first_coded = if variable { 0 } else { last };
        let coded = match form {
            Form::Plain => first_coded..last,
            Form::SelfDelimited => first_coded..count,
        };
        for &size in &self.frames[coded] {
            bytes.extend(coded_length(size));
        }
        let data = self.frames.iter().sum::<usize>() + padding.map_or(0, Padding::length);
        bytes.extend(random.bytes(data));
        bytes
    }
}

/// The one or two bytes that a frame's size is coded by.
fn coded_length(size: usize) -> Vec<u8> {
    assert!(size <= LARGEST_FRAME, "a size that has a code");
    if size < 252 {
        vec![size as u8]
    } else {
        let first = 252 + size % 4;
        vec![first as u8, ((size - first) / 4) as u8]
    }
}

/// The samples at 48 kHz in a frame of a configuration.
pub fn frame_samples(config: u8) -> u64 {
    let tenths_of_milliseconds = match (config, config % 4) {
        (0..=11, step) => [100, 200, 400, 600][usize::from(step)],
        (12..=15, step) => [100, 200][usize::from(step % 2)],
        (_, step) => [25, 50, 100, 200][usize::from(step)],
    };
    tenths_of_milliseconds * 48 / 10
}

/// What is told of an audio packet: its length in samples, and of its first Opus packet the number of
/// frames, whether its stereo bit is set, and whether it is silent: no frame has a byte.
#[derive(Clone, Copy, Debug, PartialEq, Eq)]
pub struct Contents {
    pub samples: u64,
    pub frames: u64,
    pub stereo: bool,
    pub silent: bool,
}

impl Contents {
    /// The four numbers that reading gives.
    pub fn numbers(self) -> [u64; 4] {
        [
            self.samples,
            self.frames,
            self.stereo.into(),
            self.silent.into(),
        ]
    }
}

/// An Opus packet that was read.
#[derive(Debug)]
pub struct Opus {
    /// The two low bits of the TOC byte.
    pub code: u8,
    pub stereo: bool,
    /// Whether the frames can differ in size.
    pub variable: bool,
    /// The bytes of padding, if the packet is marked as padded.
    pub padding: Option<usize>,
    pub samples: u64,
    /// The sizes of the frames in bytes.
    pub sizes: Vec<usize>,
}

impl Opus {
    pub fn frames(&self) -> u64 {
        self.sizes.len() as u64
    }

    pub fn is_silent(&self) -> bool {
        self.sizes.iter().sum::<usize>() == 0
    }
}

/// What is told of an audio packet of so many streams, or the refusal's number.
pub fn read(packet: &[u8], streams: u64) -> Result<Contents, u32> {
    let packets = read_packets(packet, streams)?;
    let first = &packets[0];
    Ok(Contents {
        samples: first.samples,
        frames: first.frames(),
        stereo: first.stereo,
        silent: first.is_silent(),
    })
}

/// The Opus packets of an audio packet of so many streams, or the refusal's number.
pub fn read_packets(packet: &[u8], streams: u64) -> Result<Vec<Opus>, u32> {
    if !(1..=255).contains(&streams) {
        return Err(BAD_STREAMS);
    }
    let mut rest = packet;
    let packets: Vec<Opus> = (0..streams)
        .map(|place| take_packet(&mut rest, Form::at(place, streams)))
        .collect::<Option<_>>()
        .ok_or(ILLEGAL_PACKET)?;
    let samples = packets[0].samples;
    if packets.iter().all(|packet| packet.samples == samples) {
        Ok(packets)
    } else {
        Err(MIXED_LENGTHS)
    }
}

/// Takes one Opus packet off the front, if it is legal. Codes 0 to 2 are read as the CBR and VBR
/// packets of one or two frames that they abbreviate.
fn take_packet(rest: &mut &[u8], form: Form) -> Option<Opus> {
    let toc = *rest.split_off_first()?;
    let code = toc & 3;
    let (count, variable, is_padded) = match code {
        0 => (1, false, false),
        1 => (2, false, false),
        2 => (2, true, false),
        _ => {
            let byte = *rest.split_off_first()?;
            (byte & 0x3f, byte & 0x80 != 0, byte & 0x40 != 0)
        }
    };
    let samples = u64::from(count) * frame_samples(toc >> 3);
    if count == 0 || samples > MOST_SAMPLES {
        return None;
    }
    let padding = match is_padded {
        true => Some(take_padding(rest)?),
        false => None,
    };
    let padded = padding.unwrap_or(0);
    let mut sizes = Vec::new();
    if variable {
        for _ in 1..count {
            sizes.push(take_length(rest)?);
        }
    }
    let open = usize::from(count) - sizes.len();
    let size = match form {
        Form::SelfDelimited => take_length(rest)?,
        Form::Plain => {
            let taken = sizes.iter().sum::<usize>() + padded;
            share(rest.len().checked_sub(taken)?, open)?
        }
    };
    sizes.resize(usize::from(count), size);
    rest.split_off(..sizes.iter().sum::<usize>() + padded)?;
    let legal = sizes.iter().all(|&size| size <= LARGEST_FRAME);
    legal.then_some(Opus {
        code,
        stereo: toc & 4 != 0,
        variable,
        padding,
        samples,
        sizes,
    })
}

/// The size of each of so many frames of one size that fill `length` bytes, if there is one.
fn share(length: usize, frames: usize) -> Option<usize> {
    length.is_multiple_of(frames).then_some(length / frames)
}

fn take_length(rest: &mut &[u8]) -> Option<usize> {
    let first = usize::from(*rest.split_off_first()?);
    if first < 252 {
        return Some(first);
    }
    let second = usize::from(*rest.split_off_first()?);
    Some(first + 4 * second)
}

fn take_padding(rest: &mut &[u8]) -> Option<usize> {
    let mut length = 0;
    loop {
        match *rest.split_off_first()? {
            255 => length += 254,
            last => return Some(length + usize::from(last)),
        }
    }
}
