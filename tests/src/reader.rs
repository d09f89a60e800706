//! A reader of a stream: what it knows between two pages, and the sixteen numbers that represent
//! it over the C interface. What it does with a page is in [`crate::feeding`].

use crate::head::{Head, UNFIT_FIELDS};
use crate::stamps::Listing;
use std::ops::Range;

/// The places of a reader's numbers.
pub const NUMBERS: usize = 16;
/// Those of its totals. The two after them are zeros that nothing looks at.
pub const TOTALS: Range<usize> = 10..14;

/// Of all the pages accepted: the samples kept, skipped and trimmed, and those of the holes.
pub type Totals = [u64; 4];

#[derive(Clone, Copy, Debug, PartialEq, Eq)]
pub enum Phase {
    /// No page yet.
    First,
    /// The comment packet is not complete.
    Comment,
    Audio,
    /// Opened part way, and no page yet.
    Opened,
    Ended,
}

/// The packet that the next page continues.
#[derive(Clone, Copy, Debug, PartialEq, Eq)]
pub enum Unfinished {
    Nothing,
    /// So many bytes of it are in the carry buffer.
    Held(u64),
    /// It began before the page that the reader was opened at.
    Dropped,
}

/// The last granule position of an audio page, P.
#[derive(Clone, Copy, Debug, PartialEq, Eq)]
pub enum Position {
    /// None yet.
    Unset,
    /// None yet since the reader was opened part way.
    Joined,
    At(u64),
}

#[derive(Clone, Debug, PartialEq, Eq)]
pub struct Reader {
    pub phase: Phase,
    pub unfinished: Unfinished,
    pub position: Position,
    pub serial: u32,
    /// The sequence number that is due.
    pub next: u32,
    pub streams: u8,
    pub pre_skip: u16,
    /// The samples still to be skipped.
    pub to_skip: u16,
    pub totals: Totals,
}

impl Reader {
    /// A reader that has seen nothing.
    pub fn started() -> Reader {
        Reader {
            phase: Phase::First,
            unfinished: Unfinished::Nothing,
            position: Position::Unset,
            serial: 0,
            next: 0,
            streams: 0,
            pre_skip: 0,
            to_skip: 0,
            totals: [0; 4],
        }
    }

    /// A reader opened part way, or the refusal's number.
    pub fn opened(head: &Head) -> Result<Reader, u32> {
        if !head.is_readable() {
            return Err(UNFIT_FIELDS);
        }
        Ok(Reader {
            phase: Phase::Opened,
            position: Position::Joined,
            streams: head.streams as u8,
            pre_skip: head.pre_skip as u16,
            ..Reader::started()
        })
    }

    /// Whether the comment packet is still to be completed.
    pub fn is_in_headers(&self) -> bool {
        matches!(self.phase, Phase::First | Phase::Comment)
    }

    /// Adds what becomes of the samples of an accepted page to the totals, modulo 2^64.
    pub fn count(&mut self, listing: &Listing) {
        let counts = [listing.kept, listing.skipped, listing.trimmed, listing.hole];
        for (total, count) in self.totals.iter_mut().zip(counts) {
            let sum = u128::from(*total) + u128::from(count);
            *total = (sum % (1 << 64)) as u64;
        }
    }

    /// The reader that any sixteen numbers represent: an unknown phase is Ended, an unknown
    /// unfinished packet is dropped, an unknown position is a granule position, and a number counts
    /// modulo the width of its field.
    pub fn from_numbers(numbers: &[u64; NUMBERS]) -> Reader {
        let [phase, unfinished, held, position, granule, serial, next, streams, pre_skip, to_skip, ..] =
            *numbers;
        Reader {
            phase: match phase {
                0 => Phase::First,
                1 => Phase::Comment,
                2 => Phase::Audio,
                3 => Phase::Opened,
                _ => Phase::Ended,
            },
            unfinished: match unfinished {
                0 => Unfinished::Nothing,
                1 => Unfinished::Held(held),
                _ => Unfinished::Dropped,
            },
            position: match position {
                0 => Position::Unset,
                1 => Position::Joined,
                _ => Position::At(granule),
            },
            serial: serial as u32,
            next: next as u32,
            streams: streams as u8,
            pre_skip: pre_skip as u16,
            to_skip: to_skip as u16,
            totals: totals_in(numbers),
        }
    }

    pub fn numbers(&self) -> [u64; NUMBERS] {
        let (unfinished, held) = match self.unfinished {
            Unfinished::Nothing => (0, 0),
            Unfinished::Held(held) => (1, held),
            Unfinished::Dropped => (2, 0),
        };
        let (position, granule) = match self.position {
            Position::Unset => (0, 0),
            Position::Joined => (1, 0),
            Position::At(granule) => (2, granule),
        };
        let mut numbers = [0; NUMBERS];
        numbers[..10].copy_from_slice(&[
            self.phase as u64,
            unfinished,
            held,
            position,
            granule,
            self.serial.into(),
            self.next.into(),
            self.streams.into(),
            self.pre_skip.into(),
            self.to_skip.into(),
        ]);
        numbers[TOTALS].copy_from_slice(&self.totals);
        numbers
    }
}

/// The totals among a reader's numbers: any are as good as others.
pub fn totals_in(numbers: &[u64; NUMBERS]) -> Totals {
    numbers[TOTALS].try_into().expect("four places")
}
