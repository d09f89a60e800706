//! Calls of the library that build an index and seek in it and watch all that they are lent, held to
//! what the rules say that they leave.

use crate::ffi_index;
use crate::index::{self, Columns, Index, Sought, Unsought, COLUMNS};
use crate::reading::Reading;
use std::fmt::Display;

/// The places watched after a list.
const AFTER: usize = 4;

/// The lists that a call is lent, each with places around it that stay.
#[derive(Clone, PartialEq, Eq)]
struct Memory(Index);

impl Memory {
    /// Lists that would hold so many records even if what is lent of them does not, so that records
    /// stored all the same are seen.
    fn of(rooms: [usize; COLUMNS], records: usize) -> Memory {
        let most = rooms.into_iter().max().unwrap_or(0).max(records);
        let mut old = Index::default();
        for place in 0..(1 + most + AFTER) as u64 {
            let number = 0xa5a5_0000_5a5a_0000 + place;
            old.push(number, number << 1, 0xa5a5_5a5a + place as u32);
        }
        Memory(old)
    }

    fn lend(&mut self, [granules, places, sequences]: [usize; COLUMNS]) -> Columns<'_> {
        Columns {
            granules: &mut self.0.granules[1..][..granules],
            places: &mut self.0.places[1..][..places],
            sequences: &mut self.0.sequences[1..][..sequences],
        }
    }

    /// Stores records in the first places of what is lent.
    fn store(&mut self, index: &Index) {
        let lent = self.lend([index.count(); COLUMNS]);
        lent.granules.copy_from_slice(&index.granules);
        lent.places.copy_from_slice(&index.places);
        lent.sequences.copy_from_slice(&index.sequences);
    }
}

/// Counts the records of any bytes by the library, holds it to the rules and gives the count.
pub fn check_count(bytes: &[u8], case: impl Display) -> usize {
    let count = index::index(bytes).count();
    assert_eq!(ffi_index::count(bytes), count as u64, "count, {case}");
    count
}

/// Builds an index into lists of these lengths, holds the library to the rules and gives what they
/// tell.
pub fn check_build(
    bytes: &[u8],
    rooms: [usize; COLUMNS],
    case: impl Display,
) -> Result<Index, u32> {
    let told = index::build(bytes, rooms);
    let mut library = Memory::of(rooms, index::index(bytes).count());
    let mut rules = library.clone();
    let found = Reading::by_library(|[count]: &mut [u64; 1]| {
        ffi_index::build(bytes, library.lend(rooms), count)
    });
    if let Ok(index) = &told {
        rules.store(index);
    }
    let count = told.as_ref().map(|index| [index.count() as u64]);
    let expected = Reading::by_rules(count.map_err(|&number| number));
    assert_eq!(found, expected, "{rooms:?} places, {case}");
    assert!(library == rules, "lists of {rooms:?} places, {case}");
    told
}

/// Seeks in an index by the library, holds it to the rules and gives what they tell.
pub fn check_seek(index: &Index, target: u64, case: impl Display) -> Result<Sought, Unsought> {
    let mut numbers = Reading::refused(0);
    let place = Reading::by_library(|[place]: &mut [u64; 1]| {
        numbers = Reading::by_library(|out| ffi_index::seek(index, target, out, place));
        numbers.answer
    });
    let told = index::seek(index, target);
    let expected = match told {
        Ok(sought) => [Reading::accepted(sought.numbers()), Reading::refused(0)],
        Err(Unsought::Falling(at)) => {
            let number = Unsought::Falling(at).number();
            [Reading::refused(number), Reading::stored(number, [at])]
        }
        Err(why) => [(); 2].map(|()| Reading::refused(why.number())),
    };
    assert_eq!([numbers, place], expected, "target {target}, {case}");
    told
}
