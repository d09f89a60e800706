//! The pages of a buffer, straight from RFC 3533 and the rules in docs/RULES.md (sections 3 and 7):
//! where each ends, and feeding them one after the other. Written for clearness and independent of
//! the library: its answers are what the library's are held to.

use crate::feeding::{self, Lent, LIST};
use crate::ogg::{sum, HEAD};
use crate::reader::{Reader, NUMBERS};

/// Why feeding stops.
#[derive(Clone, Copy, Debug, PartialEq, Eq)]
pub enum Stop {
    /// The next page is not whole in the buffer.
    Cut,
    /// Fewer places of a list are left than a page can need.
    Full,
    /// The next page is refused by this number.
    Refused(u32),
}

/// What feeding the pages of a buffer comes to.
#[derive(Debug, PartialEq, Eq)]
pub struct Fed {
    /// The places after the accepted pages.
    pub ends: Vec<usize>,
    /// How many packets they list.
    pub packets: usize,
    pub stop: Stop,
}

impl Fed {
    /// The bytes of the accepted pages.
    pub fn taken(&self) -> usize {
        self.ends.last().copied().unwrap_or(0)
    }

    pub fn pages(&self) -> usize {
        self.ends.len()
    }

    /// The number that is returned.
    pub fn answer(&self) -> u32 {
        match self.stop {
            Stop::Refused(number) => number,
            Stop::Cut | Stop::Full => 0,
        }
    }

    /// The four numbers that are stored.
    pub fn numbers(&self) -> [u64; 4] {
        let why = match self.stop {
            Stop::Cut => 0,
            Stop::Full => 1,
            Stop::Refused(_) => 2,
        };
        let counts = [self.taken(), self.pages(), self.packets];
        let [taken, pages, packets] = counts.map(|count| count as u64);
        [taken, pages, packets, why]
    }

    /// The accepted pages in their buffer.
    pub fn accepted<'a>(&self, bytes: &'a [u8]) -> impl Iterator<Item = &'a [u8]> {
        let starts = [0].into_iter().chain(self.ends.iter().copied());
        let places: Vec<_> = starts.zip(self.ends.iter().copied()).collect();
        places.into_iter().map(|(start, end)| &bytes[start..end])
    }
}

/// The place after the page that starts at a place, if it is whole in the buffer. Bytes that begin no
/// page are taken up to the end, where there are as many as a page has at least.
pub fn page_end(bytes: &[u8], at: u64) -> Option<usize> {
    let start = usize::try_from(at).ok()?;
    let rest = bytes.get(start..)?;
    let (head, after) = rest.split_at_checked(HEAD)?;
    if !head.starts_with(b"OggS") {
        return Some(bytes.len());
    }
    let count = usize::from(head[HEAD - 1]);
    let (lacing, body) = after.split_at_checked(count)?;
    let whole = body.len() >= sum(lacing);
    whole.then(|| start + HEAD + count + sum(lacing))
}

/// Feeds the pages of a buffer, each with the places of the lists that the ones before it left. The
/// numbers of the reader change only where a page is accepted.
pub fn feed(numbers: &mut [u64; NUMBERS], bytes: &[u8], lent: &mut Lent) -> Fed {
    let mut reader = Reader::from_numbers(numbers);
    let mut fed = Fed {
        ends: Vec::new(),
        packets: 0,
        stop: Stop::Full,
    };
    while lent
        .lists
        .iter()
        .all(|list| list.len() >= fed.packets + LIST)
    {
        let start = fed.taken();
        let Some(end) = page_end(bytes, start as u64) else {
            fed.stop = Stop::Cut;
            break;
        };
        let mut left = Lent {
            carry: &mut *lent.carry,
            lists: lent.lists.each_mut().map(|list| &mut list[fed.packets..]),
        };
        match feeding::feed(&mut reader, &bytes[start..end], &mut left) {
            Ok(listing) => {
                *numbers = reader.numbers();
                fed.ends.push(end);
                fed.packets += listing.entries.len();
            }
            Err(number) => {
                fed.stop = Stop::Refused(number);
                break;
            }
        }
    }
    fed
}
