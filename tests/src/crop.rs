//! Cropping a whole stream at a page, and the page to crop at for a position, straight from the rules in
//! docs/RULES.md: each page is looked at by itself. Written for clearness and independent of the
//! library: its answers are what the library's are held to.

use crate::buffer_pages::page_end;
use crate::feeding::{self, Lent, CONTINUED, LAST, LIST, LISTS};
use crate::judging::{judge, Fault};
use crate::ogg::{self, Page, NO_ROOM};
use crate::reader::Reader;
use crate::stamps::Entry;
use crate::tags::LONGEST;

/// No crop begins at the page that is asked for, or at any page early enough.
pub const NO_START: u32 = 29;

/// Why no crop begins at a page.
#[derive(Clone, Copy, Debug, PartialEq, Eq)]
pub enum Occasion {
    Missing,
    Header,
    Continued,
    CompletesNothing,
    Last,
}

impl Occasion {
    pub const ALL: [Occasion; 5] = [
        Occasion::Missing,
        Occasion::Header,
        Occasion::Continued,
        Occasion::CompletesNothing,
        Occasion::Last,
    ];

    pub fn name(self) -> &'static str {
        match self {
            Occasion::Missing => "no such page",
            Occasion::Header => "a page of the headers",
            Occasion::Continued => "marked continued",
            Occasion::CompletesNothing => "completes no packet",
            Occasion::Last => "marked last",
        }
    }
}

/// A page of a stream, the packets that it lists, the samples that it trims and its hole.
pub struct Fed {
    pub page: Page,
    pub packets: Vec<Entry>,
    pub trimmed: u64,
    pub hole: u64,
}

/// A whole stream.
pub struct Whole {
    pub pages: Vec<Fed>,
    /// How many of the pages are header pages.
    pub headers: usize,
}

impl Whole {
    /// The stream in a buffer, or its number if it is not whole.
    pub fn of(bytes: &[u8]) -> Result<Whole, u32> {
        judge(bytes).map_err(Fault::number)?;
        let mut carry = vec![0; LONGEST];
        let mut lists = [[0; LIST]; LISTS];
        let mut reader = Reader::started();
        let (mut pages, mut headers) = (Vec::new(), 0);
        let mut start = 0;
        while start < bytes.len() {
            let end = page_end(bytes, start as u64).expect("a whole page");
            let page = &bytes[start..end];
            headers += usize::from(reader.is_in_headers());
            let mut lent = Lent {
                carry: &mut carry,
                lists: lists.each_mut().map(|list| &mut list[..]),
            };
            let told = feeding::feed(&mut reader, page, &mut lent);
            let told = told.expect("a page of a whole stream");
            pages.push(Fed {
                page: ogg::read(page).expect("a right page"),
                packets: told.entries,
                trimmed: told.trimmed,
                hole: told.hole,
            });
            start = end;
        }
        Ok(Whole { pages, headers })
    }

    /// All the reasons why no crop begins at a page.
    pub fn occasions(&self, page: u64) -> Vec<Occasion> {
        let Some(place) = self.place(page) else {
            return vec![Occasion::Missing];
        };
        let Page { flags, lacing, .. } = &self.pages[place].page;
        let mut occasions = Vec::new();
        if place < self.headers {
            occasions.push(Occasion::Header);
        }
        if flags & CONTINUED != 0 {
            occasions.push(Occasion::Continued);
        }
        if lacing.iter().all(|&value| value == 255) {
            occasions.push(Occasion::CompletesNothing);
        }
        if flags & LAST != 0 {
            occasions.push(Occasion::Last);
        }
        occasions
    }

    fn place(&self, page: u64) -> Option<usize> {
        let place = usize::try_from(page).ok()?;
        (place < self.pages.len()).then_some(place)
    }

    /// The pages at which a crop begins, each with the position where its first packet starts.
    pub fn starts(&self) -> Vec<[u64; 2]> {
        let pages = (0..).zip(&self.pages);
        pages
            .filter(|&(number, _)| self.occasions(number).is_empty())
            .map(|(number, fed)| {
                let first = fed.packets.first().expect("a packet that completes");
                [number, first.end - first.length]
            })
            .collect()
    }

    /// By how much the numbers of the pages from this one on fall.
    pub fn shift(&self, page: u64) -> u32 {
        (page - self.headers as u64) as u32
    }

    /// The crop that begins at a page, or the refusal's number.
    pub fn crop(&self, page: u64) -> Result<Vec<u8>, u32> {
        if !self.occasions(page).is_empty() {
            return Err(NO_START);
        }
        let headers = self.pages[..self.headers].iter();
        let mut crop: Vec<u8> = headers.flat_map(|fed| ogg::encode(&fed.page)).collect();
        for fed in &self.pages[page as usize..] {
            crop.extend(shifted(&fed.page, self.shift(page)));
        }
        Ok(crop)
    }

    /// The last page, up to this one, at which a crop begins and whose first packet starts at or before
    /// a position, and where that packet starts; or the refusal's number.
    pub fn crop_start(&self, last: u64, position: u64) -> Result<[u64; 2], u32> {
        let starts = self.starts().into_iter();
        let mut early = starts.filter(|&[page, start]| page <= last && start <= position);
        early.next_back().ok_or(NO_START)
    }
}

/// The bytes of a page with a number that is lower by so much, modulo 2^32.
pub fn shifted(page: &Page, shift: u32) -> Vec<u8> {
    ogg::encode(&Page {
        sequence: page.sequence.wrapping_sub(shift),
        ..page.clone()
    })
}

/// What is written to an output of `room` bytes, or the refusal's number.
pub fn crop(bytes: &[u8], page: u64, room: usize) -> Result<Vec<u8>, u32> {
    let crop = Whole::of(bytes)?.crop(page)?;
    match crop.len() <= room {
        true => Ok(crop),
        false => Err(NO_ROOM),
    }
}

/// The page to crop at and where its first packet starts, or the refusal's number.
pub fn crop_start(bytes: &[u8], last: u64, position: u64) -> Result<[u64; 2], u32> {
    Whole::of(bytes)?.crop_start(last, position)
}
