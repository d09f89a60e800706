//! A stream in a buffer, straight from the rules in docs/RULES.md (section 15): its pages fed to a
//! reader one after the other. Written for clearness and independent of the library: its answers are
//! what the library's are held to.

use crate::buffer_pages::page_end;
use crate::feeding::{self, Lent, LIST, LISTS};
use crate::reader::Reader;
use crate::tags::LONGEST;

pub const HEADERS_INCOMPLETE: u32 = 24;

/// Why a stream is not whole.
#[derive(Clone, Copy, Debug, PartialEq, Eq)]
pub enum Fault {
    /// The page of this number, of which the first is 0, is refused.
    Page { number: u32, page: u64 },
    /// The comment packet is not complete.
    HeadersIncomplete,
}

impl Fault {
    /// The number that is returned.
    pub fn number(self) -> u32 {
        match self {
            Fault::Page { number, .. } => number,
            Fault::HeadersIncomplete => HEADERS_INCOMPLETE,
        }
    }
}

/// How many pages the stream in a buffer has, if it is whole. What is left of the buffer where no
/// page is whole is fed as it is.
pub fn judge(bytes: &[u8]) -> Result<usize, Fault> {
    let mut carry = vec![0; LONGEST];
    let mut lists = [[0; LIST]; LISTS];
    let mut reader = Reader::started();
    let (mut start, mut pages) = (0, 0);
    while start < bytes.len() {
        let end = page_end(bytes, start as u64).unwrap_or(bytes.len());
        let mut lent = Lent {
            carry: &mut carry,
            lists: lists.each_mut().map(|list| &mut list[..]),
        };
        if let Err(number) = feeding::feed(&mut reader, &bytes[start..end], &mut lent) {
            let page = pages as u64;
            return Err(Fault::Page { number, page });
        }
        (start, pages) = (end, pages + 1);
    }
    if reader.is_in_headers() {
        return Err(Fault::HeadersIncomplete);
    }
    Ok(pages)
}
