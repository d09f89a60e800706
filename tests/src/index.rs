//! The index of a stream in a buffer, and seeking in it, straight from the rules in docs/RULES.md
//! (section 15). Written for clearness and independent of the library: its answers are what the
//! library's are held to.

use crate::buffer_pages::page_end;
use crate::judging::{judge, Fault};
use crate::ogg::{HEAD, NO_ROOM};

/// A granule position is below the one before it.
pub const FALLING_GRANULE: u32 = 26;
/// How far before the target a reader is opened, in samples (RFC 7845, section 4.6).
pub const PRE_ROLL: u64 = 3_840;
/// The lists of an index.
pub const COLUMNS: usize = 3;

/// The records of an index, of each of which the lists have a place: the page's granule position, the
/// place of its first byte and its sequence number.
#[derive(Clone, Debug, Default, PartialEq, Eq)]
pub struct Index {
    pub granules: Vec<u64>,
    pub places: Vec<u64>,
    pub sequences: Vec<u32>,
}

/// The lists that building is lent.
pub struct Columns<'a> {
    pub granules: &'a mut [u64],
    pub places: &'a mut [u64],
    pub sequences: &'a mut [u32],
}

impl Index {
    pub fn push(&mut self, granule: u64, place: u64, sequence: u32) {
        self.granules.push(granule);
        self.places.push(place);
        self.sequences.push(sequence);
    }

    /// The lengths of the lists.
    pub fn lengths(&self) -> [usize; COLUMNS] {
        [self.granules.len(), self.places.len(), self.sequences.len()]
    }

    /// How many records there are, by the granule positions.
    pub fn count(&self) -> usize {
        self.granules.len()
    }
}

/// Whether a packet completes on a page. Bytes that are cut have no more lacing values than are there.
fn completes(page: &[u8]) -> bool {
    let Some((head, after)) = page.split_at_checked(HEAD) else {
        return false;
    };
    let count = usize::from(head[HEAD - 1]);
    after.iter().take(count).any(|&value| value < 255)
}

/// The records that the pages of a buffer make, whatever its bytes are. The first page has the
/// identification header; the comment header goes on up to the first page where a packet completes.
pub fn index(bytes: &[u8]) -> Index {
    let mut index = Index::default();
    let (mut start, mut headers) = (0, 2);
    while start < bytes.len() {
        let end = page_end(bytes, start as u64).unwrap_or(bytes.len());
        let page = &bytes[start..end];
        match (headers, completes(page)) {
            (0, true) => index.push(
                u64::from_le_bytes(*page[6..].first_chunk().expect("a granule position")),
                start as u64,
                u32::from_le_bytes(*page[18..].first_chunk().expect("a sequence number")),
            ),
            (2, _) | (1, true) => headers -= 1,
            _ => (),
        }
        start = end;
    }
    index
}

/// The index of a whole stream for lists of these lengths, or the refusal's number.
pub fn build(bytes: &[u8], rooms: [usize; COLUMNS]) -> Result<Index, u32> {
    let [room, ..] = rooms;
    if rooms != [room; COLUMNS] {
        return Err(NO_ROOM);
    }
    judge(bytes).map_err(Fault::number)?;
    let index = index(bytes);
    if index.count() > room {
        return Err(NO_ROOM);
    }
    Ok(index)
}

/// What seeking finds: a record, or the begin of the stream, and how many records it looked at.
#[derive(Clone, Copy, Debug, PartialEq, Eq)]
pub struct Sought {
    pub record: Option<usize>,
    pub probes: u64,
}

impl Sought {
    /// The three numbers that are stored.
    pub fn numbers(self) -> [u64; 3] {
        let record = self.record.unwrap_or(0) as u64;
        [self.record.is_some().into(), record, self.probes]
    }
}

/// Why nothing is sought.
#[derive(Clone, Copy, Debug, PartialEq, Eq)]
pub enum Unsought {
    /// The lists have different lengths.
    Unequal,
    /// The granule position at this place is the first that is below the one before it.
    Falling(u64),
}

impl Unsought {
    /// The number that is returned.
    pub fn number(self) -> u32 {
        match self {
            Unsought::Unequal => NO_ROOM,
            Unsought::Falling(_) => FALLING_GRANULE,
        }
    }
}

/// How many records halving looks at. Of those that remain it looks at the one with half of them
/// before it.
fn probes(granules: &[u64], limit: u64) -> u64 {
    let (mut before, mut rest, mut probes) = (0, granules.len(), 0);
    while rest > 0 {
        let half = rest / 2;
        probes += 1;
        if granules[before + half] <= limit {
            before += half + 1;
            rest -= half + 1;
        } else {
            rest = half;
        }
    }
    probes
}

/// Seeks the last record at or before the target less the pre-roll.
pub fn seek(index: &Index, target: u64) -> Result<Sought, Unsought> {
    let granules = &index.granules;
    if index.lengths() != [index.count(); COLUMNS] {
        return Err(Unsought::Unequal);
    }
    if let Some(before) = granules.windows(2).position(|pair| pair[1] < pair[0]) {
        return Err(Unsought::Falling(before as u64 + 1));
    }
    let Some(limit) = target.checked_sub(PRE_ROLL) else {
        return Ok(Sought {
            record: None,
            probes: 0,
        });
    };
    Ok(Sought {
        record: granules.iter().rposition(|&granule| granule <= limit),
        probes: probes(granules, limit),
    })
}
