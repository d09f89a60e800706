//! Calls of the library that salvage a stream and watch all that they are lent, held to what the rules
//! say that they leave.

use crate::ffi_salvage::{self, Lent};
use crate::reading::Reading;
use crate::salvage::{Rooms, Saved, COLUMNS};
use std::fmt::Display;

/// The places watched after what is lent.
const AFTER: usize = 4;

/// The output and the columns that a call is lent, each with places around it that stay.
#[derive(Clone, PartialEq, Eq)]
struct Memory {
    output: Vec<u8>,
    columns: [Vec<u64>; COLUMNS],
}

impl Memory {
    /// Memory that would hold what is saved even if what is lent of it does not, so that bytes and
    /// lines stored all the same are seen.
    fn of(rooms: &Rooms, saved: Option<&Saved>) -> Memory {
        let (bytes, lines) = saved.map_or((0, 0), |saved| (saved.bytes.len(), saved.lines.len()));
        let bytes = 1 + rooms.output.max(bytes) + AFTER;
        let numbers = |first: u64, room: usize| {
            let count = 1 + room.max(lines) + AFTER;
            (first..).take(count).collect()
        };
        let [what, places, sizes] = rooms.columns;
        Memory {
            output: (0..bytes).map(|place| place as u8 ^ 0xa5).collect(),
            columns: [
                numbers(0xa5a5_0000_5a5a_0000, what),
                numbers(0xa5a5_1111_5a5a_0000, places),
                numbers(0xa5a5_2222_5a5a_0000, sizes),
            ],
        }
    }

    fn lend<'a>(&'a mut self, rooms: &Rooms, work: &'a mut [u64]) -> Lent<'a> {
        let mut rooms_left = rooms.columns.into_iter();
        let lend = |column: &'a mut Vec<u64>| {
            let room = rooms_left.next().expect("a room for each column");
            &mut column[1..][..room]
        };
        Lent {
            work,
            output: &mut self.output[1..][..rooms.output],
            columns: self.columns.each_mut().map(lend),
        }
    }

    /// Stores what is saved in the first places of what is lent.
    fn store(&mut self, saved: &Saved) {
        self.output[1..][..saved.bytes.len()].copy_from_slice(&saved.bytes);
        for (place, line) in saved.lines.iter().enumerate() {
            for (column, number) in self.columns.iter_mut().zip(line) {
                column[1 + place] = *number;
            }
        }
    }
}

/// Salvages any bytes by the library with this much room, holds it to what the rules tell, and gives
/// the number returned. What `work` holds at the end is free.
pub fn check_salvage(
    bytes: &[u8],
    told: &Result<Saved, u32>,
    rooms: &Rooms,
    case: impl Display,
) -> u32 {
    let mut library = Memory::of(rooms, told.as_ref().ok());
    let mut rules = library.clone();
    let old: Vec<u64> = (0xa5a5_3333_5a5a_0000..)
        .take(1 + rooms.work + AFTER)
        .collect();
    let mut work = old.clone();
    let found = Reading::by_library(|counts: &mut [u64; 2]| {
        let work = &mut work[1..][..rooms.work];
        ffi_salvage::salvage(bytes, library.lend(rooms, work), counts)
    });
    let expected = match (rooms.answer(bytes.len(), told), told) {
        (0, Ok(saved)) => {
            rules.store(saved);
            Reading::accepted([saved.bytes.len() as u64, saved.lines.len() as u64])
        }
        (number, _) => Reading::refused(number),
    };
    assert_eq!(found, expected, "{rooms:?}, {case}");
    assert!(library == rules, "memory of {rooms:?}, {case}");
    assert_eq!(work[0], old[0], "before work of {rooms:?}, {case}");
    let after = 1 + rooms.work;
    assert_eq!(work[after..], old[after..], "after work, {case}");
    found.answer
}
