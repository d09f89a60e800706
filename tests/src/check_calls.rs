//! Calls of the library that check a stream and watch all that they are lent, held to what the rules say
//! that they leave.

use crate::check::{stored, Finding, LISTS};
use crate::ffi_check;
use crate::reading::Reading;
use std::fmt::Display;

/// The places watched before and after a list.
const BEFORE: usize = 4;
const AFTER: usize = 4;
/// What the first places of the two lists have before a call: no kind and no page.
const OLD: [u64; LISTS] = [0xa5a5_0000_5a5a_0000, 0xa5a5_1111_5a5a_0000];

/// The lists that a call is lent, each with places around it that stay.
#[derive(Clone, Debug, PartialEq, Eq)]
struct Memory([Vec<u64>; LISTS]);

impl Memory {
    /// Lists that would hold so many findings even if what is lent of them does not, so that findings
    /// stored all the same are seen.
    fn of(rooms: [usize; LISTS], findings: usize) -> Memory {
        let most = rooms.into_iter().fold(findings, usize::max);
        let numbers = |first: u64| (first..).take(BEFORE + most + AFTER).collect();
        Memory(OLD.map(numbers))
    }

    fn lend(&mut self, [kinds, pages]: [usize; LISTS]) -> [&mut [u64]; LISTS] {
        let [first, second] = self.0.each_mut();
        [
            &mut first[BEFORE..][..kinds],
            &mut second[BEFORE..][..pages],
        ]
    }

    /// Stores findings in the first places of what is lent.
    fn store(&mut self, findings: &[Finding]) {
        let [kinds, pages] = self.lend([findings.len(); LISTS]);
        for (place, finding) in findings.iter().enumerate() {
            (kinds[place], pages[place]) = (finding.kind, finding.page);
        }
    }
}

/// Checks any bytes by the library into lists of these lengths, holds it to what the rules tell of the
/// stream, and gives the number returned.
pub fn check_findings(
    bytes: &[u8],
    told: &Result<Vec<Finding>, u32>,
    rooms: [usize; LISTS],
    case: impl Display,
) -> u32 {
    let mut library = Memory::of(rooms, told.as_ref().map_or(0, Vec::len));
    let mut rules = library.clone();
    let found = Reading::by_library(|[count]: &mut [u64; 1]| {
        ffi_check::check(bytes, library.lend(rooms), count)
    });
    let stored = stored(told, rooms);
    if let Ok(findings) = stored {
        rules.store(findings);
    }
    let count = stored.map(|findings| [findings.len() as u64]);
    assert_eq!(found, Reading::by_rules(count), "{rooms:?} places, {case}");
    assert_eq!(library, rules, "lists of {rooms:?} places, {case}");
    found.answer
}
