//! Calls of the library that give text and watch all that lies around their outputs, held to what the
//! rules say that they leave.

use crate::ffi_lines;
use crate::header_text;
use crate::index::Index;
use crate::lines::{self, Line, Packets, LONGEST_LINE, LONGEST_RECORD};
use crate::ogg::NO_ROOM;
use crate::reading::Reading;
use crate::writing::{assert_same_bytes, old_bytes, BEFORE, BEHIND};
use std::fmt::Display;

/// An output of some bytes with others around it, for the library and for the rules.
struct Outputs {
    library: Vec<u8>,
    rules: Vec<u8>,
    room: usize,
}

impl Outputs {
    /// So many bytes, and behind them at least as many as would be written.
    fn of(room: usize, needed: usize) -> Outputs {
        let bytes = old_bytes(BEFORE + room + needed + BEHIND);
        Outputs {
            library: bytes.clone(),
            rules: bytes,
            room,
        }
    }

    fn lend(&mut self) -> [&mut [u8]; 2] {
        [&mut self.library, &mut self.rules].map(|bytes| &mut bytes[BEFORE..][..self.room])
    }

    fn check(&self, case: impl Display) {
        assert_same_bytes(&self.library, &self.rules, case);
    }
}

/// Puts a line by the library.
fn put(line: &Line, out: &mut [u8], at: u64) -> u64 {
    match *line {
        Line::First => ffi_lines::list_first(out, at),
        Line::Total(ref numbers) => ffi_lines::list_total(numbers, out, at),
        Line::Refused { number, page } => ffi_lines::list_refused(number, page, out, at),
        Line::IndexFirst => ffi_lines::index_first(out, at),
        Line::SeekFirst => ffi_lines::seek_first(out, at),
        Line::Found {
            granule,
            place,
            sequence,
            probes,
        } => ffi_lines::seek_found([granule, place, probes], sequence, out, at),
        Line::Begin { probes } => ffi_lines::seek_begin(probes, out, at),
        Line::Number(number) => ffi_lines::index_refused(number, out, at),
        Line::Unsought { number, place } => ffi_lines::seek_refused(number, place, out, at),
    }
}

/// Puts a line at a place of an output of `room` bytes, holds the library to the rules and gives the
/// answer.
pub fn check_line(line: &Line, room: usize, at: u64, case: impl Display) -> u64 {
    let text = line.text();
    let mut outputs = Outputs::of(room, text.len());
    let [library, rules] = outputs.lend();
    let found = put(line, library, at);
    let told = lines::put(&text, rules, at);
    assert_eq!(found, told, "{line:?} at {at} of {room}, {case}");
    outputs.check(case);
    found
}

/// Lines, how long they are at most, and how the library puts them.
struct Lines<F> {
    lines: Vec<String>,
    longest: usize,
    put: F,
}

/// The same with such lines. The answer is how many they are and the place after them.
fn check_lines<F>(all: Lines<F>, room: usize, at: u64, case: impl Display) -> [u64; 2]
where
    F: FnOnce(&mut [u8], &mut [u64; 2]),
{
    let mut outputs = Outputs::of(room, all.longest);
    let [library, rules] = outputs.lend();
    let found = Reading::by_library(|numbers| {
        (all.put)(library, numbers);
        0
    });
    let told = lines::put_all(&all.lines, all.longest, rules, at);
    assert_eq!(found, Reading::accepted(told), "at {at} of {room}, {case}");
    outputs.check(case);
    told
}

/// The same with the lines of packets.
pub fn check_packets(packets: &Packets, room: usize, at: u64, case: impl Display) -> [u64; 2] {
    let lines = Lines {
        lines: packets.lines(),
        longest: LONGEST_LINE,
        put: |out: &mut [u8], put: &mut [u64; 2]| ffi_lines::list_entries(packets, out, at, put),
    };
    check_lines(lines, room, at, case)
}

/// The same with the lines of an index's records.
pub fn check_records(index: &Index, room: usize, at: u64, case: impl Display) -> [u64; 2] {
    let lines = Lines {
        lines: lines::record_lines(index),
        longest: LONGEST_RECORD,
        put: |out: &mut [u8], put: &mut [u64; 2]| ffi_lines::index_records(index, out, at, put),
    };
    check_lines(lines, room, at, case)
}

/// Writes the lines of two headers to an output of `room` bytes, holds the library to the rules and
/// gives the answer. What an output that is too short holds is open.
pub fn check_headers(head: &[u8], comments: &[u8], room: usize, case: impl Display) -> u32 {
    let text = header_text::text(head, comments);
    let mut outputs = Outputs::of(room, text.as_ref().map_or(0, String::len));
    let told = match text {
        Ok(text) if text.len() > room => Err(NO_ROOM),
        other => other,
    };
    let [library, rules] = outputs.lend();
    let found = Reading::by_library(|[written]: &mut [u64; 1]| {
        ffi_lines::header_lines(head, comments, library, written)
    });
    match &told {
        Ok(text) => rules[..text.len()].copy_from_slice(text.as_bytes()),
        Err(NO_ROOM) => rules.copy_from_slice(library),
        Err(_) => (),
    }
    let length = told.map(|text| [text.len() as u64]);
    assert_eq!(found, Reading::by_rules(length), "{room} bytes, {case}");
    outputs.check(case);
    found.answer
}

/// The text that the library gives of two right headers.
pub fn found_text(head: &[u8], comments: &[u8]) -> String {
    let text = header_text::text(head, comments).expect("right headers");
    assert_eq!(check_headers(head, comments, text.len(), "found"), 0);
    let mut out = vec![0; text.len()];
    let mut written = 0;
    let answer = ffi_lines::header_lines(head, comments, &mut out, &mut written);
    assert_eq!(answer, 0);
    assert_eq!(written, text.len() as u64);
    String::from_utf8(out).expect("text")
}
