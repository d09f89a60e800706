//! A stream by its accepted pages alone, with no reader in it: its packets, joined from the lacing
//! values of all the pages, and its samples, each counted by itself (RFC 7845, section 4).

use crate::feeding::{CONTINUED, LAST};
use crate::ogg::Page;
use crate::reader::Totals;
use std::fmt::Display;

/// A packet, and the number of the page that it began on: none if that was before all the pages.
#[derive(Clone)]
pub struct Packet {
    pub began: Option<usize>,
    pub bytes: Vec<u8>,
}

/// Packets put together from one page after the other.
#[derive(Clone, Default)]
pub struct Joining {
    pages: usize,
    pub unfinished: Option<Packet>,
}

impl Joining {
    /// The packets that complete on the next page.
    pub fn add(&mut self, page: &Page) -> Vec<Packet> {
        let begun = |began| Packet {
            began,
            bytes: Vec::new(),
        };
        if page.flags & CONTINUED != 0 {
            self.unfinished.get_or_insert_with(|| begun(None));
        }
        let mut here = Vec::new();
        let mut rest = &page.body[..];
        for &value in &page.lacing {
            let part = rest.split_off(..usize::from(value)).expect("a whole body");
            let began = Some(self.pages);
            let packet = self.unfinished.get_or_insert_with(|| begun(began));
            packet.bytes.extend(part);
            if value < 255 {
                here.extend(self.unfinished.take());
            }
        }
        self.pages += 1;
        here
    }
}

/// The packets that complete on each of some audio pages.
pub fn packets(pages: &[Page]) -> Vec<Vec<Packet>> {
    let mut joining = Joining::default();
    pages.iter().map(|page| joining.add(page)).collect()
}

/// What the pages of a stream so far come to.
#[derive(Clone)]
pub struct Count {
    pre_skip: i128,
    decoded: i128,
    initial: i128,
    holes: i128,
    /// The last granule position, if some packet has completed.
    last: Option<i128>,
    /// The samples kept, counted one by one.
    pub kept: i128,
    skipped: i128,
    trimmed: i128,
}

impl Count {
    pub fn new(pre_skip: u64) -> Count {
        Count {
            pre_skip: pre_skip.into(),
            decoded: 0,
            initial: 0,
            holes: 0,
            last: None,
            kept: 0,
            skipped: 0,
            trimmed: 0,
        }
    }

    /// Counts a page where packets of so many samples complete.
    pub fn add(&mut self, page: &Page, samples: u64) {
        let (granule, samples) = (i128::from(page.granule), i128::from(samples));
        let is_last = page.flags & LAST != 0;
        let before = match self.last {
            Some(position) => {
                self.holes += (granule - position - samples).max(0);
                position
            }
            None => {
                self.initial = (granule - samples).max(0);
                self.initial
            }
        };
        let is_cut = is_last && granule < before + samples;
        let start = if is_cut { before } else { granule - samples };
        for position in start + 1..=start + samples {
            if is_last && position > granule {
                self.trimmed += 1;
            } else if self.decoded < self.pre_skip {
                self.skipped += 1;
            } else {
                self.kept += 1;
            }
            self.decoded += 1;
        }
        self.last = Some(granule);
    }

    /// The samples kept by the last granule position, the initial one, the holes and the pre-skip.
    pub fn kept_by_positions(&self) -> i128 {
        let last = self.last.unwrap_or(self.initial);
        (last - self.initial - self.holes - self.pre_skip).max(0)
    }

    /// Holds a reader's totals to the samples counted one by one. They are all that were decoded,
    /// and with the holes and the initial position they reach to the last granule position.
    pub fn check(&self, totals: Totals, case: impl Display) {
        let found = totals.map(i128::from);
        let counted = [self.kept, self.skipped, self.trimmed, self.holes];
        assert_eq!(found, counted, "totals, {case}");
        let [kept, skipped, trimmed, holes] = found;
        assert_eq!(kept + skipped + trimmed, self.decoded, "decoded, {case}");
        assert!(skipped <= self.pre_skip, "skipped, {case}");
        let reached = self.initial + kept + skipped + holes;
        assert_eq!(reached, self.last.unwrap_or(0), "reached, {case}");
    }
}
