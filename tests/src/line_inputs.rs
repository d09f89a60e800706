//! Numbers for the lines of the random runs, and places where no line fits.

use crate::random::Random;

/// Places at which no line fits.
pub const FAR: [u64; 6] = [1 << 20, 1 << 31, 1 << 32, 1 << 63, u64::MAX - 20, u64::MAX];

/// A number of so many digits, often one at the ends of these.
pub fn of_digits(random: &mut Random, digits: u32) -> u64 {
    let least = 10_u64.pow(digits - 1);
    let most = 10_u64.checked_pow(digits).map_or(u64::MAX, |next| next - 1);
    let any = least + random.number() % (most - least + 1);
    *random.pick(&[least, most, any, any])
}

pub fn any_number(random: &mut Random) -> u64 {
    let digits = random.within(1..=20) as u32;
    match random.one_in(16) {
        true => 0,
        false => of_digits(random, digits),
    }
}

/// A number of 32 bits, often one at the ends of its digits.
pub fn any_sequence(random: &mut Random) -> u32 {
    let digits = random.within(1..=10) as u32;
    let number = match random.one_in(16) {
        true => 0,
        false => of_digits(random, digits),
    };
    u32::try_from(number).unwrap_or(u32::MAX - random.below(3) as u32)
}

/// An output's length for lines of so many bytes at a place: mostly enough, often just so, and
/// sometimes short.
pub fn room(random: &mut Random, at: usize, length: usize) -> usize {
    match random.below(8) {
        0 => random.below(at + length + 1),
        1 => at + length - 1,
        2..=3 => at + length,
        4 => at,
        _ => at + length + random.below(100),
    }
}
