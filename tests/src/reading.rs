//! What a reading call leaves in the places for its numbers, and in the places around them.

/// What the places hold before a call. It is lent some from the second on.
const OLD_NUMBERS: [u64; 10] = [
    0xa5a5_0000_1111_5a5a,
    0xa5a5_0000_2222_5a5a,
    0xa5a5_0000_3333_5a5a,
    0xa5a5_0000_4444_5a5a,
    0xa5a5_0000_5555_5a5a,
    0xa5a5_0000_6666_5a5a,
    0xa5a5_0000_7777_5a5a,
    0xa5a5_0000_8888_5a5a,
    0xa5a5_0000_aaaa_5a5a,
    0xa5a5_0000_bbbb_5a5a,
];

/// What a reading call leaves: its answer and all the places.
#[derive(Debug, PartialEq)]
pub struct Reading {
    pub answer: u32,
    places: [u64; 10],
}

impl Reading {
    /// What a call leaves that stores `N` numbers, at most eight.
    pub fn by_library<const N: usize>(call: impl FnOnce(&mut [u64; N]) -> u32) -> Reading {
        let mut reading = Reading::refused(0);
        reading.answer = call((&mut reading.places[1..=N]).try_into().expect("N places"));
        reading
    }

    pub fn by_rules<const N: usize>(told: Result<[u64; N], u32>) -> Reading {
        told.map_or_else(Reading::refused, Reading::accepted)
    }

    pub fn accepted<const N: usize>(numbers: [u64; N]) -> Reading {
        let mut reading = Reading::refused(0);
        reading.places[1..=N].copy_from_slice(&numbers);
        reading
    }

    /// What a call leaves that stores its numbers whatever its answer is.
    pub fn stored<const N: usize>(answer: u32, numbers: [u64; N]) -> Reading {
        Reading {
            answer,
            ..Reading::accepted(numbers)
        }
    }

    pub fn refused(answer: u32) -> Reading {
        Reading {
            answer,
            places: OLD_NUMBERS,
        }
    }

    /// The first `N` numbers stored.
    pub fn numbers<const N: usize>(&self) -> [u64; N] {
        self.places[1..=N].try_into().expect("N places")
    }
}
