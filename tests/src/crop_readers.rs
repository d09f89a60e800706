//! Readers of the library, by what they list and refuse alone.

use crate::buffer_pages::page_end;
use crate::feeding::{Lent, LIST, LISTS};
use crate::ffi;
use crate::reader::{Reader, NUMBERS};
use crate::tags::LONGEST;

/// The end stamp, the length and the frames of each packet that a page lists.
pub type Stamps = Vec<[u64; 3]>;

/// A reader of the library, and what it is lent.
#[derive(Clone)]
pub struct Lister {
    state: [u64; NUMBERS],
    carry: Vec<u8>,
    lists: [[u64; LIST]; LISTS],
}

impl Lister {
    pub fn started() -> Lister {
        let mut state = [0xa5a5_5a5a; NUMBERS];
        ffi::start(&mut state);
        Lister {
            state,
            carry: vec![0x5a; LONGEST],
            lists: [[0xa5a5_5a5a; LIST]; LISTS],
        }
    }

    pub fn reader(&self) -> Reader {
        Reader::from_numbers(&self.state)
    }

    /// What a page lists, or the refusal's number.
    pub fn feed(&mut self, page: &[u8]) -> Result<Stamps, u32> {
        let lent = Lent {
            carry: &mut self.carry,
            lists: self.lists.each_mut().map(|list| &mut list[..]),
        };
        let mut record = [0; 6];
        match ffi::feed(&mut self.state, page, lent, &mut record) {
            0 => {
                let [ends, lengths, _, frames] = &self.lists;
                let packets = 0..record[0] as usize;
                let stamps = packets.map(|place| [ends[place], lengths[place], frames[place]]);
                Ok(stamps.collect())
            }
            number => Err(number),
        }
    }

    /// What each page of a whole stream lists.
    pub fn list(&mut self, stream: &[u8]) -> Vec<Stamps> {
        let mut listed = Vec::new();
        let mut start = 0;
        while start < stream.len() {
            let end = page_end(stream, start as u64).expect("a whole page");
            let told = self.feed(&stream[start..end]);
            listed.push(told.expect("a page of a whole stream"));
            start = end;
        }
        listed
    }
}

/// A whole stream as the library lists it.
pub struct Listed {
    /// The reader after the last page.
    pub reader: Lister,
    pub pages: Vec<Stamps>,
}

impl Listed {
    pub fn of(stream: &[u8]) -> Listed {
        let mut reader = Lister::started();
        let pages = reader.list(stream);
        Listed { reader, pages }
    }
}
