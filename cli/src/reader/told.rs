//! What feeding tells.

use crate::refusal::Refusal;

/// What is told of a packet.
#[derive(Clone, Copy, Debug, PartialEq, Eq)]
pub struct Packet {
    /// The end stamp: the position of its last sample.
    pub end: u64,
    /// Its length in samples.
    pub length: u64,
    /// How many of these are kept.
    pub kept: u64,
    /// The number of frames of its first Opus packet.
    pub frames: u64,
}

/// What becomes of samples, of one page or of all that were accepted.
#[derive(Clone, Copy, Debug, PartialEq, Eq)]
pub struct Totals {
    /// Those that are kept.
    pub kept: u64,
    /// Those skipped at the start.
    pub skipped: u64,
    /// Those trimmed at the end.
    pub trimmed: u64,
    /// Those that are missing, in holes before pages.
    pub hole: u64,
}

/// What is told of one page; all is zero on a page of the headers and where no packet completes.
#[derive(Clone, Copy, Debug, PartialEq, Eq)]
pub struct Listed {
    /// How many packets it lists, in the first places of the lists.
    pub packets: usize,
    /// Their samples.
    pub samples: u64,
    /// What becomes of these, and the hole before them.
    pub totals: Totals,
}

/// Why feeding the pages of a buffer stopped.
#[derive(Clone, Copy, Debug, PartialEq, Eq)]
pub enum Stop {
    /// The next page is not whole in the buffer.
    Cut,
    /// The lists have no room for another page.
    Full,
    /// The next page is refused.
    Refused(Refusal),
}

/// How far feeding the pages of a buffer came.
#[derive(Clone, Copy, Debug, PartialEq, Eq)]
pub struct Fed {
    /// How many bytes the accepted pages have; the next page starts there.
    pub bytes: usize,
    /// How many pages were accepted.
    pub pages: u64,
    /// How many packets they list, in the first places of the lists.
    pub packets: usize,
    /// Why it stopped.
    pub stop: Stop,
}
