//! Records and lengths for the old clock, right and wrong, with the answers that can come of them.

use crate::clock::{Clock, CLOCK_RANGE, MOST};
use crate::inputs::{change, Change};
use crate::random::Random;

const TAKEN: &[u32] = &[0];
const REFUSED: &[u32] = &[CLOCK_RANGE];
const EITHER: &[u32] = &[0, CLOCK_RANGE];

/// A length that a packet can have.
pub fn right_length(random: &mut Random) -> u64 {
    120 * random.within(1..=48) as u64
}

/// Readings, those included that no addition gives.
pub const READINGS: &[Change<Clock>] = &[
    change("the count", TAKEN, |_, clock| {
        clock.reading = clock.count as f32
    }),
    change("zero", TAKEN, |random, clock| {
        clock.reading = *random.pick(&[0.0, -0.0])
    }),
    change("a NaN", TAKEN, |random, clock| {
        let payload = random.within(1..=0x7f_ffff) as u32;
        clock.reading = f32::from_bits(sign(random) | 0x7f80_0000 | payload)
    }),
    change("an infinity", TAKEN, |random, clock| {
        clock.reading = f32::from_bits(sign(random) | 0x7f80_0000)
    }),
    change("a subnormal", TAKEN, |random, clock| {
        let digits = random.within(1..=0x7f_ffff) as u32;
        clock.reading = f32::from_bits(sign(random) | digits)
    }),
    change("the largest", TAKEN, |random, clock| {
        let below = random.below(4) as u32;
        clock.reading = f32::from_bits(sign(random) | (0x7f7f_ffff - below))
    }),
    change("negative, near a length", TAKEN, |random, clock| {
        let length = right_length(random) as f32;
        clock.reading = near(random, -length)
    }),
    change("negative and whole", TAKEN, |random, clock| {
        clock.reading = -(random.below(1 << 32) as f32)
    }),
    change("near a power of two", TAKEN, |random, clock| {
        let power = 2f32.powi(random.within(0..=40) as i32);
        clock.reading = near(random, power)
    }),
    change("whole", TAKEN, |random, clock| {
        clock.reading = random.below(1 << 33) as f32
    }),
    change("any bits", TAKEN, |random, clock| {
        clock.reading = f32::from_bits(random.number() as u32)
    }),
];

/// Counts. A right length has 120 samples or more, 5,760 or fewer.
pub const COUNTS: &[Change<Clock>] = &[
    change("small", TAKEN, |random, clock| {
        clock.count = random.below(1 << 28) as u64
    }),
    change("of 62 bits", TAKEN, |random, clock| {
        clock.count = random.number() >> 2
    }),
    change("the last for every length", TAKEN, |random, clock| {
        clock.count = MOST - 5760 - random.below(2) as u64
    }),
    change("near 2^63", EITHER, |random, clock| {
        clock.count = MOST - random.below(5761) as u64
    }),
    change("the last for a length", EITHER, |random, clock| {
        clock.count = MOST - right_length(random) + random.below(2) as u64
    }),
    change("too near 2^63", REFUSED, |random, clock| {
        clock.count = MOST - random.below(120) as u64
    }),
    change("just above", REFUSED, |random, clock| {
        clock.count = MOST + 1 + random.below(5761) as u64
    }),
    change("above", REFUSED, |random, clock| {
        clock.count = random.number() | 1 << 63
    }),
    change("where 64 bits wrap", REFUSED, |random, clock| {
        clock.count = u64::MAX - random.below(5761) as u64
    }),
];

/// Lengths that no packet has. The low bits of some are a right one.
pub const WRONG_LENGTHS: &[Change<u64>] = &[
    change("zero", REFUSED, |_, length| *length = 0),
    change("5,880", REFUSED, |_, length| *length = 5880),
    change("next to a right one", REFUSED, |random, length| {
        *length = match random.one_in(2) {
            true => *length - 1,
            false => *length + 1,
        }
    }),
    change("no multiple", REFUSED, |random, length| {
        *length += random.within(1..=119) as u64
    }),
    change("a larger multiple", REFUSED, |random, length| {
        *length = 120 * random.within(49..=1 << 40) as u64
    }),
    change("a right one and a high bit", REFUSED, |random, length| {
        *length |= 1 << random.within(16..=63)
    }),
    change("a right one less 2^64", REFUSED, |_, length| {
        *length = length.wrapping_neg()
    }),
    change("any above", REFUSED, |random, length| {
        *length = random.number() | 1 << 13
    }),
];

/// The sign's bit, or none.
fn sign(random: &mut Random) -> u32 {
    (random.below(2) as u32) << 31
}

/// A value at most four places of its format away.
fn near(random: &mut Random, value: f32) -> f32 {
    f32::from_bits(value.to_bits() - 4 + random.below(9) as u32)
}
