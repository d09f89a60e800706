//! The matrix in an identification header of family 3 (RFC 8486, section 3.2): its part of the packet
//! and its entries, which the library is asked for and held to the rules.

use crate::ffi;
use crate::head::{Head, MATRIX, TABLE};
use crate::reading::Reading;
use std::fmt::Display;

/// There is no such entry.
pub const NO_SUCH_ENTRY: u32 = 20;

/// A packet, and what the rules tell of it.
pub struct Matrix<'a> {
    packet: &'a [u8],
    told: Result<&'a Head, u32>,
}

impl<'a> Matrix<'a> {
    /// Asks the library for the part of the packet that the matrix is and for the entries at the ends
    /// of what there can be, and holds all to the rules.
    pub fn checked(
        packet: &'a [u8],
        told: &'a Result<Head, u32>,
        case: impl Display,
    ) -> Matrix<'a> {
        let told = told.as_ref().map_err(|&number| number);
        let matrix = Matrix { packet, told };
        let found = Reading::by_library(|part| ffi::head_matrix(packet, part));
        let expected = Reading::by_rules(told.map(part));
        assert_eq!(found, expected, "matrix, {}, {case}", matrix.shown());
        for number in [0, matrix.count().wrapping_sub(1), matrix.count(), 1 << 63] {
            matrix.entry(number, &case);
        }
        matrix
    }

    /// The number of entries, 0 under a refusal.
    pub fn count(&self) -> u64 {
        self.told.map_or(0, |head| head.matrix.len() as u64 / 2)
    }

    /// Asks the library for an entry, holds it to the rules and gives the answer.
    pub fn entry(&self, number: u64, case: impl Display) -> u32 {
        let found = Reading::by_library(|[value]: &mut [u64; 1]| {
            ffi::head_matrix_entry(self.packet, number, value)
        });
        let told = self.told.and_then(|head| entry_of(head, number));
        let expected = Reading::by_rules(told.map(|value| [value]));
        assert_eq!(found, expected, "entry {number}, {}, {case}", self.shown());
        found.answer
    }

    fn shown(&self) -> String {
        let (length, start) = (self.packet.len(), &self.packet[..self.packet.len().min(24)]);
        format!("{length} bytes from {start:02x?}")
    }
}

/// The matrix that the library finds in a packet.
pub fn found_matrix(packet: &[u8]) -> Vec<u8> {
    let reading = Reading::by_library(|part| ffi::head_matrix(packet, part));
    assert_eq!(reading.answer, 0);
    let [place, length] = reading.numbers().map(|number| number as usize);
    packet[place..][..length].to_vec()
}

/// The place and the length of the matrix in its packet, two zeros where the family has none.
fn part(head: &Head) -> [u64; 2] {
    match head.family {
        MATRIX => [TABLE as u64, head.matrix.len() as u64],
        _ => [0, 0],
    }
}

/// The 16 bits of an entry, or the refusal's number.
fn entry_of(head: &Head, number: u64) -> Result<u64, u32> {
    let (entries, _) = head.matrix.as_chunks();
    let entry = usize::try_from(number).ok().and_then(|n| entries.get(n));
    let bytes = entry.ok_or(NO_SUCH_ENTRY)?;
    Ok(u16::from_le_bytes(*bytes).into())
}
