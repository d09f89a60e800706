//! Reading calls of the library that watch all that lies around their outputs, and what the rules
//! say that they leave.

use crate::ffi;
use crate::head::{self, Head, PLACES};
use crate::head_matrix::{found_matrix, Matrix};
use crate::ogg::{self, Page, HEAD};
use crate::opus::{self, Contents};
use crate::reading::Reading;
use crate::writing::{assert_same_bytes, old_bytes, BEFORE, BEHIND};
use std::fmt::Display;

/// What the library's reader of pages leaves.
pub fn read_page(bytes: &[u8]) -> Reading {
    Reading::by_library(|places| ffi::page_read(bytes, places))
}

/// Reads a page by the library, holds it to the rules and gives the answer.
pub fn check_reading(bytes: &[u8], case: &str) -> u32 {
    let reading = read_page(bytes);
    let expected = Reading::by_rules(ogg::read(bytes).map(|page| page.numbers()));
    let length = bytes.len();
    assert_eq!(reading, expected, "{length} bytes, {case}");
    reading.answer
}

/// Reads an audio packet by the library, holds it to the rules and gives what they tell.
pub fn check_packet(packet: &[u8], streams: u64, case: impl Display) -> Result<Contents, u32> {
    let told = opus::read(packet, streams);
    let reading = Reading::by_library(|out| ffi::packet_read(packet, streams, out));
    let expected = Reading::by_rules(told.map(Contents::numbers));
    let (length, start) = (packet.len(), &packet[..packet.len().min(24)]);
    assert_eq!(
        reading, expected,
        "{streams} streams, {length} bytes from {start:02x?}, {case}"
    );
    told
}

/// What the library's reader of identification headers leaves: its answer and the fields, and the
/// channel mapping with the bytes around it.
fn read_head(packet: &[u8]) -> (Reading, Vec<u8>) {
    let mut buffer = old_bytes(BEFORE + PLACES + BEHIND);
    let mapping = buffer[BEFORE..].first_chunk_mut().expect("255 places");
    let reading = Reading::by_library(|fields| ffi::head_read(packet, fields, mapping));
    (reading, buffer)
}

/// Reads an identification header and its matrix by the library, holds them to the rules and gives
/// what they tell.
pub fn check_head(packet: &[u8], case: impl Display) -> Result<Head, u32> {
    let told = head::read(packet);
    let (reading, buffer) = read_head(packet);
    let mut expected = old_bytes(buffer.len());
    if let Ok(head) = &told {
        expected[BEFORE..][..PLACES].copy_from_slice(&head.mapping);
    }
    let fields = told.as_ref().map(Head::fields).map_err(|&number| number);
    let (length, start) = (packet.len(), &packet[..packet.len().min(24)]);
    assert_eq!(
        reading,
        Reading::by_rules(fields),
        "{length} bytes from {start:02x?}, {case}"
    );
    assert_same_bytes(&buffer, &expected, &case);
    Matrix::checked(packet, &told, case);
    told
}

/// The page that the library finds in bytes: its fields from the numbers, the rest by the counts.
pub fn found(bytes: &[u8]) -> Page {
    let reading = read_page(bytes);
    assert_eq!(reading.answer, 0);
    let [flags, granule, serial, sequence, values, length] = reading.numbers();
    let (lacing, body) = bytes[HEAD..].split_at(values as usize);
    assert_eq!(body.len() as u64, length);
    Page {
        flags,
        granule,
        serial: serial.try_into().expect("a serial of 32 bits"),
        sequence: sequence.try_into().expect("a sequence of 32 bits"),
        lacing: lacing.to_vec(),
        body: body.to_vec(),
    }
}

/// The identification header, with its matrix, that the library finds in bytes.
pub fn found_head(packet: &[u8]) -> Head {
    let (reading, buffer) = read_head(packet);
    assert_eq!(reading.answer, 0);
    let mapping = buffer[BEFORE..].first_chunk().expect("255 places");
    Head::new(reading.numbers(), *mapping, found_matrix(packet))
}
