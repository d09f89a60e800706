//! Stamps and cuts on one page where an audio packet completes, straight from RFC 7845 (section 4)
//! and the rules in docs/PROMISES.md: in numbers that cannot overflow, and each sample by itself.

use crate::opus::Contents;
use crate::reader::Position;

/// The granule position is too small.
pub const SMALL_GRANULE: u32 = 17;
/// The first page that completes a packet is marked last and its granule is below the pre-skip.
pub const BELOW_PRE_SKIP: u32 = 18;
/// A reader opened part way has no position to count from.
pub const NO_POSITION: u32 = 19;

/// What is known of a page where an audio packet completes, and before it.
pub struct Completing<'a> {
    pub position: Position,
    pub pre_skip: u16,
    pub to_skip: u16,
    pub granule: u64,
    pub last: bool,
    /// The packets that are listed.
    pub packets: &'a [Contents],
}

/// A listed packet: its end stamp, its length, its kept count and its number of frames.
#[derive(Clone, Copy, Debug, PartialEq, Eq)]
pub struct Entry {
    pub end: u64,
    pub length: u64,
    pub kept: u64,
    pub frames: u64,
}

/// What becomes of the samples of a page.
#[derive(Default)]
pub struct Listing {
    pub entries: Vec<Entry>,
    pub kept: u64,
    pub skipped: u64,
    pub trimmed: u64,
    pub hole: u64,
}

impl Listing {
    pub fn samples(&self) -> u64 {
        self.entries.iter().map(|entry| entry.length).sum()
    }

    /// The six numbers that feeding gives.
    pub fn numbers(&self) -> [u64; 6] {
        let packets = self.entries.len() as u64;
        [
            packets,
            self.samples(),
            self.kept,
            self.skipped,
            self.trimmed,
            self.hole,
        ]
    }
}

impl Completing<'_> {
    fn samples(&self) -> i128 {
        let lengths = self.packets.iter().map(|packet| packet.samples);
        lengths.map(i128::from).sum()
    }

    /// The position before the page, or the refusal's number.
    pub fn before(&self) -> Result<i128, u32> {
        let (g, d) = (i128::from(self.granule), self.samples());
        match self.position {
            Position::Joined if self.last => Err(NO_POSITION),
            Position::Unset if self.last && g < self.pre_skip.into() => Err(BELOW_PRE_SKIP),
            Position::Unset | Position::Joined if !self.last && g < d => Err(SMALL_GRANULE),
            Position::Unset | Position::Joined => Ok((g - d).max(0)),
            Position::At(p) => {
                let p = i128::from(p);
                let least = if self.last { p } else { p + d };
                if g < least {
                    Err(SMALL_GRANULE)
                } else {
                    Ok(p)
                }
            }
        }
    }

    /// The packets of the page and what becomes of their samples, or the refusal's number.
    pub fn listing(&self) -> Result<Listing, u32> {
        let before = self.before()?;
        let (g, d) = (i128::from(self.granule), self.samples());
        let mut listing = Listing::default();
        if matches!(self.position, Position::At(_)) {
            listing.hole = (g - before - d).max(0) as u64;
        }
        let runs_forward = self.last && g < before + d;
        let mut position = if runs_forward { before } else { g - d };
        let mut decoded = 0;
        for packet in self.packets {
            let kept_before = listing.kept;
            for _ in 0..packet.samples {
                position += 1;
                self.count(&mut listing, position, decoded);
                decoded += 1;
            }
            listing.entries.push(Entry {
                end: position as u64,
                length: packet.samples,
                kept: listing.kept - kept_before,
                frames: packet.frames,
            });
        }
        Ok(listing)
    }

    /// Counts the sample at a position that so many decoded ones of the page precede.
    fn count(&self, listing: &mut Listing, position: i128, decoded: u64) {
        if self.last && position > self.granule.into() {
            listing.trimmed += 1;
        } else if decoded < self.to_skip.into() {
            listing.skipped += 1;
        } else {
            listing.kept += 1;
        }
    }
}
