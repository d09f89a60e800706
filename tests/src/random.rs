//! A small deterministic generator (splitmix64), so that a run can be repeated from its printed
//! seed.

use crate::tally::say;
use std::env;
use std::ops::RangeInclusive;
use std::sync::OnceLock;

const DEFAULT_SEED: u64 = 20_260_401;

pub struct Random(u64);

impl Random {
    /// A generator for one test: the seed of the run, apart from the other tests' by its number.
    pub fn of_run(test: u64) -> Random {
        let mut random = Random(seed_of_run() ^ test.wrapping_mul(0xd134_2543_de82_ef95));
        random.number();
        random
    }

    pub fn number(&mut self) -> u64 {
        self.0 = self.0.wrapping_add(0x9e37_79b9_7f4a_7c15);
        let mut z = self.0;
        z = (z ^ z >> 30).wrapping_mul(0xbf58_476d_1ce4_e5b9);
        z = (z ^ z >> 27).wrapping_mul(0x94d0_49bb_1331_11eb);
        z ^ z >> 31
    }

    /// A number below `limit`, which is not 0.
    pub fn below(&mut self, limit: usize) -> usize {
        (self.number() % limit as u64) as usize
    }

    pub fn within(&mut self, range: RangeInclusive<usize>) -> usize {
        range.start() + self.below(range.end() - range.start() + 1)
    }

    pub fn one_in(&mut self, limit: usize) -> bool {
        self.below(limit) == 0
    }

    pub fn byte(&mut self) -> u8 {
        self.number() as u8
    }

    pub fn bytes(&mut self, count: usize) -> Vec<u8> {
        let mut bytes = Vec::with_capacity(count + 8);
        while bytes.len() < count {
            bytes.extend(self.number().to_le_bytes());
        }
        bytes.truncate(count);
        bytes
    }

    /// A field's value: often one of the two ends, as mistakes are often there.
    pub fn field(&mut self) -> u64 {
        match self.below(8) {
            0 => 0,
            1 => u64::MAX,
            _ => self.number(),
        }
    }

    pub fn pick<'a, T>(&mut self, choices: &'a [T]) -> &'a T {
        &choices[self.below(choices.len())]
    }
}

/// How many times as long as usual the longest runs are, from EMBULGRI_TIMES (decimal) or once.
pub fn times() -> usize {
    env::var("EMBULGRI_TIMES").map_or(1, |text| {
        text.parse().expect("EMBULGRI_TIMES is a decimal number")
    })
}

/// The seed of the run, from EMBULGRI_SEED (decimal) or the default; printed when first asked
/// for.
fn seed_of_run() -> u64 {
    static SEED: OnceLock<u64> = OnceLock::new();
    *SEED.get_or_init(|| {
        let seed = env::var("EMBULGRI_SEED").map_or(DEFAULT_SEED, |text| {
            text.parse().expect("EMBULGRI_SEED is a decimal number")
        });
        say(&format!("seed {seed} (EMBULGRI_SEED sets another)"));
        seed
    })
}
