//! Salvage of a damaged stream, straight from the rules in docs/RULES.md (section 16): in rounds that
//! each begin all over with the pages as they were found. Written for clearness and independent of the
//! library: its answers are what the library's are held to.

use crate::buffer_pages::page_end;
use crate::feeding::{self, Lent, FIRST, LIST, LISTS, SHORT_ROOM};
use crate::judging::HEADERS_INCOMPLETE;
use crate::ogg::{self, Page, HEAD, NO_ROOM};
use crate::reader::Reader;
use crate::salvage_tidy::{tidy, Tidied};
use crate::tags::LONGEST;

/// What a line tells.
pub const SKIP: u64 = 0;
pub const NUMBER: u64 = 1;
pub const MARK: u64 = 2;
pub const CUT: u64 = 3;

/// The columns of the lines: what, place and bytes.
pub const COLUMNS: usize = 3;

/// A line: what it tells, a place of the input, and a number of bytes.
pub type Line = [u64; COLUMNS];

/// A page that was found, and the place where it starts.
#[derive(Clone, Debug, PartialEq, Eq)]
pub struct Good {
    pub place: usize,
    pub page: Page,
}

impl Good {
    fn end(&self) -> usize {
        self.place + self.page.length()
    }
}

/// What salvage comes to where the headers are whole.
#[derive(Debug, PartialEq, Eq)]
pub struct Saved {
    pub bytes: Vec<u8>,
    pub lines: Vec<Line>,
    /// The pages that were kept, as they were found and as they are tidied.
    pub kept: Vec<(Good, Tidied)>,
    /// The places of the pages that counted as missing, in the order in which they were found to.
    pub missing: Vec<usize>,
}

/// The lengths of what a call is lent: places of `work`, bytes of output, and places of each column.
#[derive(Clone, Copy, Debug)]
pub struct Rooms {
    pub work: usize,
    pub output: usize,
    pub columns: [usize; COLUMNS],
}

impl Rooms {
    /// The number that a call with this much room returns, where salvage comes to this.
    pub fn answer(&self, length: usize, told: &Result<Saved, u32>) -> u32 {
        let fits = |saved: &Saved| {
            let is_enough = |&places: &usize| places >= saved.lines.len();
            self.output >= saved.bytes.len() && self.columns.iter().all(is_enough)
        };
        match told {
            _ if self.work < length / HEAD => SHORT_ROOM,
            &Err(number) => number,
            Ok(saved) if !fits(saved) => NO_ROOM,
            Ok(_) => 0,
        }
    }
}

/// What salvage saves of any bytes, or 24.
pub fn salvage(bytes: &[u8]) -> Result<Saved, u32> {
    let mut list = stream_in(bytes);
    let mut missing = Vec::new();
    loop {
        let pages: Vec<&Page> = list.iter().map(|good| &good.page).collect();
        let tidied = tidy(&pages);
        match feed_all(&tidied) {
            Err(number) => missing.push(list.remove(number).place),
            Ok(reader) if reader.is_in_headers() => return Err(HEADERS_INCOMPLETE),
            Ok(_) => {
                let kept: Vec<(Good, Tidied)> = list.into_iter().zip(tidied).collect();
                return Ok(Saved {
                    bytes: kept
                        .iter()
                        .flat_map(|(_, t)| ogg::encode(&t.page))
                        .collect(),
                    lines: lines(bytes.len(), &kept),
                    kept,
                    missing,
                });
            }
        }
    }
}

/// The page that starts at a place: a whole one with a right checksum.
fn page_at(bytes: &[u8], at: usize) -> Option<Page> {
    if !bytes[at..].starts_with(b"OggS") {
        return None;
    }
    let end = page_end(bytes, at as u64)?;
    ogg::read(&bytes[at..end]).ok()
}

/// The pages that are found one after the other. What lies inside one is not looked at.
pub fn good_pages(bytes: &[u8]) -> Vec<Good> {
    let mut found = Vec::new();
    let mut at = 0;
    while at < bytes.len() {
        match page_at(bytes, at) {
            Some(page) => {
                let good = Good { place: at, page };
                at = good.end();
                found.push(good);
            }
            None => at += 1,
        }
    }
    found
}

/// Those of the stream that is salvaged: of the serial of the first page with a first-page mark.
fn stream_in(bytes: &[u8]) -> Vec<Good> {
    let mut pages = good_pages(bytes);
    let first = pages.iter().find(|good| good.page.flags & FIRST != 0);
    let serial = first.map(|good| good.page.serial);
    pages.retain(|good| Some(good.page.serial) == serial);
    pages
}

/// The reader that was started and fed these pages, or the number of the first that it refuses.
fn feed_all(pages: &[Tidied]) -> Result<Reader, usize> {
    let mut carry = vec![0; LONGEST];
    let mut lists = [[0; LIST]; LISTS];
    let mut reader = Reader::started();
    for (number, tidied) in pages.iter().enumerate() {
        let mut lent = Lent {
            carry: &mut carry,
            lists: lists.each_mut().map(|list| &mut list[..]),
        };
        let bytes = ogg::encode(&tidied.page);
        feeding::feed(&mut reader, &bytes, &mut lent).map_err(|_| number)?;
    }
    Ok(reader)
}

/// What was skipped and what was changed, in the order of the input.
fn lines(length: usize, kept: &[(Good, Tidied)]) -> Vec<Line> {
    let mut lines = Vec::new();
    let mut tell =
        |what, place: usize, bytes: usize| lines.push([what, place as u64, bytes as u64]);
    let mut at = 0;
    for (good, tidied) in kept {
        if at < good.place {
            tell(SKIP, at, good.place - at);
        }
        if tidied.page.sequence != good.page.sequence {
            tell(NUMBER, good.place, 4);
        }
        if tidied.cleared {
            tell(MARK, good.place, 1);
        }
        for &bytes in &tidied.cuts {
            tell(CUT, good.place, bytes);
        }
        at = good.end();
    }
    if at < length {
        tell(SKIP, at, length - at);
    }
    lines
}
