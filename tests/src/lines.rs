//! The lines of a listing, of an index and of a seek, straight from docs/RULES.md (sections 11 and 15).
//! Written for clearness and independent of the library: its answers are what the library's are held
//! to. What the digits of a number are, Rust's own library says.

use crate::index::Index;
use crate::reader::{totals_in, NUMBERS};

/// No line of a packet is longer: four numbers of 20 digits, three spaces and a line feed.
pub const LONGEST_LINE: usize = 84;
/// No line of a record is longer: two numbers of 20 digits, one of 10, two spaces and a line feed.
pub const LONGEST_RECORD: usize = 53;

/// A line that is no packet's and no record's of an index.
#[derive(Clone, Debug)]
pub enum Line {
    First,
    /// Of a reader's numbers.
    Total([u64; NUMBERS]),
    Refused {
        number: u64,
        page: u64,
    },
    IndexFirst,
    SeekFirst,
    /// The record that a seek found.
    Found {
        granule: u64,
        place: u64,
        sequence: u32,
        probes: u64,
    },
    Begin {
        probes: u64,
    },
    /// A refusal that names neither a page nor a place.
    Number(u64),
    Unsought {
        number: u64,
        place: u64,
    },
}

impl Line {
    pub fn text(&self) -> String {
        match self {
            Line::First => "end dur frames kept\n".to_string(),
            Line::Total(numbers) => {
                let [kept, skipped, trimmed, hole] = totals_in(numbers);
                format!("total kept={kept} skipped={skipped} trimmed={trimmed} hole={hole}\n")
            }
            Line::Refused { number, page } => format!("refused {number} page {page}\n"),
            Line::IndexFirst => "granule place sequence\n".to_string(),
            Line::SeekFirst => "granule place sequence probes\n".to_string(),
            Line::Found {
                granule,
                place,
                sequence,
                probes,
            } => format!("{granule} {place} {sequence} {probes}\n"),
            Line::Begin { probes } => format!("begin {probes}\n"),
            Line::Number(number) => format!("refused {number}\n"),
            Line::Unsought { number, place } => format!("refused {number} place {place}\n"),
        }
    }
}

/// Packets, of each of which the lists have a place. The shortest list says how many there are.
#[derive(Clone, Debug, Default)]
pub struct Packets {
    pub ends: Vec<u64>,
    pub lengths: Vec<u64>,
    pub frames: Vec<u64>,
    pub kept: Vec<u64>,
}

impl Packets {
    /// Adds a packet: its end stamp, its length, its frames and its kept count.
    pub fn push(&mut self, [end, length, frames, kept]: [u64; 4]) {
        self.ends.push(end);
        self.lengths.push(length);
        self.frames.push(frames);
        self.kept.push(kept);
    }

    pub fn lines(&self) -> Vec<String> {
        let counts = self.frames.iter().zip(&self.kept);
        let packets = self.ends.iter().zip(&self.lengths).zip(counts);
        packets
            .map(|((end, length), (frames, kept))| format!("{end} {length} {frames} {kept}\n"))
            .collect()
    }
}

/// The lines of an index's records. The shortest list says how many there are.
pub fn record_lines(index: &Index) -> Vec<String> {
    let records = index.granules.iter().zip(&index.places);
    records
        .zip(&index.sequences)
        .map(|((granule, place), sequence)| format!("{granule} {place} {sequence}\n"))
        .collect()
}

/// How many bytes an output has from a place on.
fn left(out: &[u8], at: u64) -> usize {
    let after = usize::try_from(at).ok().and_then(|at| out.get(at..));
    after.map_or(0, <[u8]>::len)
}

/// Puts a line at a place of an output and gives the place after it. Where it does not fit, puts
/// nothing and gives the place itself.
pub fn put(line: &str, out: &mut [u8], at: u64) -> u64 {
    if left(out, at) < line.len() {
        return at;
    }
    out[at as usize..][..line.len()].copy_from_slice(line.as_bytes());
    at + line.len() as u64
}

/// Puts lines from a place on, as long as the longest would fit, and gives how many they are and the
/// place after them.
pub fn put_all(lines: &[String], longest: usize, out: &mut [u8], at: u64) -> [u64; 2] {
    let (mut count, mut place) = (0, at);
    for line in lines {
        if left(out, place) < longest {
            break;
        }
        place = put(line, out, place);
        count += 1;
    }
    [count, place]
}
