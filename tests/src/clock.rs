//! An independent implementation of the old clock, by Rust's own `f32`, and a call of the
//! library's that watches all that lies around its two outputs.

use crate::ffi;
use std::fmt::Display;

/// Refused: the length is none that a packet has, or the count would pass 2^63 - 1.
pub const CLOCK_RANGE: u32 = 30;

/// The most samples that a count can hold.
pub const MOST: u64 = i64::MAX.cast_unsigned();

/// What lies before and after a reading, and a count.
const OLD_READINGS: [f32; 2] = [-1.5, 2.25];
const OLD_COUNTS: [u64; 2] = [0xa5a5_0000_1111_5a5a, 0xa5a5_0000_2222_5a5a];

#[derive(Clone, Copy, Debug)]
pub struct Clock {
    pub reading: f32,
    pub count: u64,
}

impl Clock {
    pub const START: Clock = Clock {
        reading: 0.0,
        count: 0,
    };

    /// The record after a packet, or the number that refuses its length.
    pub fn after(self, length: u64) -> Result<Clock, u32> {
        if !(1..=48).any(|frames| length == 120 * frames) {
            return Err(CLOCK_RANGE);
        }
        let count = u128::from(self.count) + u128::from(length);
        if count > u128::from(MOST) {
            return Err(CLOCK_RANGE);
        }
        Ok(Clock {
            reading: self.reading + length as f32,
            count: count as u64,
        })
    }

    /// Bit for bit, where a NaN is a NaN.
    fn agrees(self, other: Clock) -> bool {
        let both_nan = self.reading.is_nan() && other.reading.is_nan();
        (both_nan || self.reading.to_bits() == other.reading.to_bits()) && self.count == other.count
    }

    /// Bit for bit, NaNs too.
    fn is_same(self, other: Clock) -> bool {
        self.reading.to_bits() == other.reading.to_bits() && self.count == other.count
    }
}

/// Adds by the library, holds it to the rules and gives its answer and the record that it leaves.
pub fn check_adding(clock: Clock, length: u64, case: impl Display) -> (u32, Clock) {
    let mut readings = [OLD_READINGS[0], clock.reading, OLD_READINGS[1]];
    let mut counts = [OLD_COUNTS[0], clock.count, OLD_COUNTS[1]];
    let answer = ffi::clock_add(&mut readings[1], &mut counts[1], length);
    let left = Clock {
        reading: readings[1],
        count: counts[1],
    };
    let right = match clock.after(length) {
        Ok(next) => answer == 0 && left.agrees(next),
        Err(number) => answer == number && left.is_same(clock),
    };
    assert!(
        right,
        "{clock:?} and {length}: {answer}, {left:?}, where the rules say {:?}, {case}",
        clock.after(length)
    );
    assert_eq!([readings[0], readings[2]], OLD_READINGS, "{case}");
    assert_eq!([counts[0], counts[2]], OLD_COUNTS, "{case}");
    (answer, left)
}
