//! Pages by their numbers, flags and lacing values alone, after two header pages, for salvage: of which
//! pages a stream is made, and not which sound, decides there. Their bytes are zeros, so that a packet
//! of 1 to 1,276 bytes is a legal one of 480 samples.

use crate::by_hand::{head_of, NO_TAGS};
use crate::feeding::{CONTINUED, FIRST, NO_GRANULE};
use crate::head;
use crate::ogg::{self, Page};
use crate::pieces::put_pieces;
use crate::random::Random;

/// The granule position of a page on which a packet completes is its number times this.
const STEP: u64 = 100_000;
const SERIAL: u32 = 7;
const PRE_SKIP: u64 = 312;

/// The value of a flag that no page may have (7).
const UNKNOWN_FLAG: u64 = 8;

/// The lacing values that the random pages have.
const LACINGS: [&[u8]; 12] = [
    &[],
    &[],
    &[3],
    &[255],
    &[255],
    &[3, 255],
    &[3, 255],
    &[4, 9],
    &[0, 9],
    &[4, 9, 255],
    &[255, 4],
    &[5, 255, 255],
];
/// The full values after them on a page that is too long: they pass 61,440 bytes.
const FULL_VALUES: usize = 241;

/// A page as the rules' own examples have it.
#[derive(Clone, Debug, PartialEq, Eq)]
pub struct Plain {
    pub number: u32,
    pub flags: u64,
    pub lacing: Vec<u8>,
}

impl Plain {
    pub fn new(number: u32, lacing: &[u8]) -> Plain {
        Plain {
            number,
            flags: 0,
            lacing: lacing.to_vec(),
        }
    }

    /// Marked continued.
    pub fn continued(number: u32, lacing: &[u8]) -> Plain {
        Plain {
            flags: CONTINUED,
            ..Plain::new(number, lacing)
        }
    }

    /// With a flag that no page may have.
    pub fn odd(mut self) -> Plain {
        self.flags |= UNKNOWN_FLAG;
        self
    }

    /// The same with more values at the end, all full.
    pub fn with_full(mut self, count: usize) -> Plain {
        self.lacing.extend(vec![255; count]);
        self
    }

    /// Of a page that was found.
    pub fn of(page: &Page) -> Plain {
        Plain {
            number: page.sequence,
            flags: page.flags,
            lacing: page.lacing.clone(),
        }
    }

    pub fn page(&self) -> Page {
        let completes = self.lacing.iter().any(|&value| value < 255);
        Page {
            flags: self.flags,
            granule: match completes {
                true => u64::from(self.number) * STEP,
                false => NO_GRANULE,
            },
            serial: SERIAL,
            sequence: self.number,
            lacing: self.lacing.clone(),
            body: vec![0; ogg::sum(&self.lacing)],
        }
    }
}

/// How many pages the headers of plain pages have.
pub const PLAIN_HEADERS: usize = 2;

/// Two header pages, numbered from 0.
pub fn headers() -> [Page; PLAIN_HEADERS] {
    let header = |flags, number, packet: &[u8]| {
        let mut page = Plain::new(number, &[]).page();
        page.flags = flags;
        page.granule = 0;
        put_pieces(&mut page, &[(packet.to_vec(), true)]);
        page
    };
    let head = head::encode(&head_of(PRE_SKIP));
    [header(FIRST, 0, &head), header(0, 1, NO_TAGS)]
}

/// A list of random pages that are often as they should be: after each comes the next number, and its
/// mark is right. Stray pages, which a reader refuses, stand between them.
pub fn plain_list(random: &mut Random) -> Vec<Plain> {
    let mut list = Vec::new();
    let (mut number, mut is_open) = (2, false);
    for _ in 0..random.within(1..=12) {
        if random.one_in(8) {
            let stray = number + random.below(20) as u32;
            list.push(plain_page(random, stray, false).odd());
        }
        let is_continued = is_open != random.one_in(8);
        let plain = plain_page(random, number, is_continued);
        is_open = plain
            .lacing
            .last()
            .map_or(is_continued, |&last| last == 255);
        list.push(plain);
        number = match random.below(12) {
            0 => number + 2,
            1 => number,
            2 => number - random.below(2) as u32,
            3 => number + random.below(20) as u32,
            _ => number + 1,
        };
    }
    list
}

/// A page of this number and mark, seldom with a flag that no page may have.
fn plain_page(random: &mut Random, number: u32, is_continued: bool) -> Plain {
    let lacing = *random.pick(&LACINGS);
    let mut plain = match is_continued {
        true => Plain::continued(number, lacing),
        false => Plain::new(number, lacing),
    };
    if random.one_in(16) {
        plain = plain.with_full(FULL_VALUES);
    }
    if random.one_in(24) {
        plain = plain.odd();
    }
    plain
}

/// The pages of such a list after two headers. A granule position is sometimes one that cannot be
/// there, or grows with the list rather than with the numbers.
pub fn plain_pages(random: &mut Random, list: &[Plain]) -> Vec<Page> {
    let by_place = random.one_in(2);
    let mut pages = headers().to_vec();
    for (place, plain) in list.iter().enumerate() {
        let mut page = plain.page();
        if by_place && page.granule != NO_GRANULE {
            page.granule = (place as u64 + 2) * STEP;
        }
        match random.below(32) {
            0 => page.granule = NO_GRANULE,
            1 => page.granule = random.below(8) as u64 * STEP,
            _ => (),
        }
        pages.push(page);
    }
    pages
}
