//! Legal identification headers of all shapes for the random runs, and a fixed set of them. They are
//! of the version that is written, unless another is asked for.

use crate::head::{encode, Head, AMBISONICS, LAST_EXACT, MATRIX, PLACES, SILENCE, TABLE, WRITTEN};
use crate::random::Random;
use crate::tags::LONGEST;

/// The numbers of channels that ambisonics can have.
pub const AMBISONIC: [usize; 30] = [
    1, 3, 4, 6, 9, 11, 16, 18, 25, 27, 36, 38, 49, 51, 64, 66, 81, 83, 100, 102, 121, 123, 144,
    146, 169, 171, 196, 198, 225, 227,
];

/// Stream counts and coupled counts that are legal, at the ends of what they can be.
pub const COUNTS: [(usize, usize); 10] = [
    (1, 0),
    (1, 1),
    (2, 1),
    (2, 2),
    (5, 3),
    (127, 127),
    (128, 126),
    (128, 127),
    (254, 1),
    (255, 0),
];

/// A legal header of any family.
pub fn head(random: &mut Random) -> Head {
    match random.below(8) {
        0..=1 => head_of_family_0(random),
        2..=3 => head_with_matrix(random),
        _ => head_with_table(random),
    }
}

/// A legal header of any family and of any version that is read.
pub fn head_to_read(random: &mut Random) -> Head {
    Head {
        version: version(random),
        ..head(random)
    }
}

/// Any version that is read, the one that is written more often.
pub fn version(random: &mut Random) -> u64 {
    match random.one_in(4) {
        true => WRITTEN,
        false => random.within(0..=15) as u64,
    }
}

/// The bytes of a header to be read: where its version may have more than the fields, often some, as
/// long as they are a packet that can be fed.
pub fn packet(random: &mut Random, head: &Head) -> Vec<u8> {
    let mut bytes = encode(head);
    if head.version > LAST_EXACT && !random.one_in(3) {
        bytes.extend(more_bytes(random));
        bytes.truncate(LONGEST);
    }
    bytes
}

/// Bytes that may follow the fields of a header.
pub fn more_bytes(random: &mut Random) -> Vec<u8> {
    let count = match random.below(4) {
        0 => 1,
        1 => random.within(2..=8),
        _ => random.within(1..=300),
    };
    match random.one_in(8) {
        true => vec![0; count],
        false => random.bytes(count),
    }
}

/// A legal header of family 0.
pub fn head_of_family_0(random: &mut Random) -> Head {
    let channels = random.within(1..=2);
    without_table(random, channels)
}

/// A legal header of family 1, 2 or 255.
pub fn head_with_table(random: &mut Random) -> Head {
    let (family, most) = *random.pick(&[(1, 8), (AMBISONICS, 227), (255, PLACES)]);
    let channels = match random.below(8) {
        _ if family == AMBISONICS => *random.pick(&AMBISONIC),
        0 => 1,
        1 => most,
        2..=4 => random.within(1..=8),
        _ => random.within(1..=most),
    };
    let counts = counts(random);
    with_table(random, family, channels, counts)
}

/// A legal header of family 3, mostly with a matrix of few entries.
pub fn head_with_matrix(random: &mut Random) -> Head {
    let most = if random.one_in(16) { LONGEST } else { 1_500 };
    let (channels, counts) = loop {
        let channels = match random.one_in(4) {
            true => *random.pick(&AMBISONIC),
            false => *random.pick(&AMBISONIC[..6]),
        };
        let counts = counts(random);
        if TABLE + matrix_length(channels, counts) <= most {
            break (channels, counts);
        }
    };
    with_matrix(random, channels, counts)
}

/// A header of family 3, of which the number of channels, the counts and so the length can be wrong.
pub fn with_matrix(random: &mut Random, channels: usize, counts: (usize, usize)) -> Head {
    let length = matrix_length(channels, counts);
    Head {
        matrix: match random.one_in(16) {
            true => vec![*random.pick(&[0, 0x7f, 0x80, 0xff]); length],
            false => random.bytes(length),
        },
        mapping: [0; PLACES],
        ..with_table(random, MATRIX, channels, counts)
    }
}

/// A header of family 3 that is right but for its length, which is above that of any header.
pub fn long_matrix(random: &mut Random) -> Head {
    let channels = *random.pick(&AMBISONIC[20..]);
    let least = (LONGEST - TABLE) / (2 * channels) + 1;
    let decoded = match random.one_in(2) {
        true => least,
        false => random.within(least..=255),
    };
    let coupled = random.within(0..=decoded / 2);
    with_matrix(random, channels, (decoded - coupled, coupled))
}

/// The bytes of a matrix of so many channels and with these counts.
pub fn matrix_length(channels: usize, (streams, coupled): (usize, usize)) -> usize {
    2 * (streams + coupled) * channels
}

/// A header of a family that has indices in it, of which only the family and the number of channels
/// can be wrong.
pub fn with_table(
    random: &mut Random,
    family: u64,
    channels: usize,
    (streams, coupled): (usize, usize),
) -> Head {
    let mut mapping = [0; PLACES];
    for place in &mut mapping[..channels] {
        *place = index(random, streams + coupled);
    }
    Head {
        family,
        channels: channels as u64,
        streams: streams as u64,
        coupled: coupled as u64,
        mapping,
        ..blank(random)
    }
}

/// A header of family 0, of which only the number of channels can be wrong.
pub fn without_table(random: &mut Random, channels: usize) -> Head {
    let mut mapping = [0; PLACES];
    for (place, index) in mapping[..channels].iter_mut().zip(0..) {
        *place = index;
    }
    Head {
        channels: channels as u64,
        streams: 1,
        coupled: channels.saturating_sub(1) as u64,
        mapping,
        ..blank(random)
    }
}

/// An index that is legal where so many channels are decoded.
pub fn index(random: &mut Random, decoded: usize) -> u8 {
    match (random.below(6), decoded) {
        (0, _) | (_, 0) => SILENCE,
        (1, _) => decoded.min(255) as u8 - 1,
        (_, _) => random.below(decoded.min(255)) as u8,
    }
}

/// Headers of each number of channels where a rule changes, in each family.
pub fn legal_set(random: &mut Random) -> Vec<Head> {
    let mut set = vec![without_table(random, 1), without_table(random, 2)];
    let first = (1..=8).map(|channels| (1, channels));
    let last = [1, 2, 8, 9, 100, 254, 255].map(|channels| (255, channels));
    for ((family, channels), counts) in first.chain(last).zip(COUNTS.into_iter().cycle()) {
        set.push(with_table(random, family, channels, counts));
    }
    for (channels, counts) in [1, 3, 4, 18, 227].into_iter().zip(COUNTS) {
        set.push(with_table(random, AMBISONICS, channels, counts));
    }
    for (channels, counts) in [1, 3, 4, 6, 9].into_iter().zip(COUNTS) {
        set.push(with_matrix(random, channels, counts));
    }
    set
}

/// A stream count and a coupled count that are legal.
fn counts(random: &mut Random) -> (usize, usize) {
    if random.one_in(2) {
        return *random.pick(&COUNTS);
    }
    let streams = match random.one_in(2) {
        true => random.within(1..=8),
        false => random.within(1..=255),
    };
    let most = streams.min(255 - streams);
    let coupled = match random.one_in(4) {
        true => most,
        false => random.within(0..=most),
    };
    (streams, coupled)
}

/// A header of no channels, with any values of the fields that the channel mapping does not need.
fn blank(random: &mut Random) -> Head {
    Head {
        version: WRITTEN,
        channels: 0,
        pre_skip: field(random, 16),
        rate: field(random, 32),
        gain: field(random, 16),
        family: 0,
        streams: 0,
        coupled: 0,
        mapping: [0; PLACES],
        matrix: Vec::new(),
    }
}

/// A value of so many bits: often one of the ends, also of those with a sign.
fn field(random: &mut Random, bits: u32) -> u64 {
    let most = (1 << bits) - 1;
    match random.below(10) {
        0 => 0,
        1 => 1,
        2 => most,
        3 => most / 2,
        4 => most / 2 + 1,
        _ => random.number() & most,
    }
}
