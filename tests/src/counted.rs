//! A stream counted while it is fed, from the accepted pages alone and with no reader in it: what a
//! reader's totals are held to.

use crate::accepted::{Count, Joining};
use crate::head::{self, Head};
use crate::ogg::Page;
use crate::opus;
use crate::reader::Totals;
use std::fmt::Display;

/// The packets that come before the audio: the two headers.
const HEADERS: usize = 2;

#[derive(Clone)]
pub struct Counted {
    joining: Joining,
    /// How many packets of the headers are still to come.
    headers: usize,
    streams: u64,
    count: Count,
}

impl Counted {
    /// A stream of no pages.
    pub fn started() -> Counted {
        Counted {
            joining: Joining::default(),
            headers: HEADERS,
            streams: 0,
            count: Count::new(0),
        }
    }

    /// The part of a stream from any audio page on, of which nothing is skipped.
    pub fn opened(head: &Head) -> Counted {
        Counted {
            headers: 0,
            streams: head.streams,
            ..Counted::started()
        }
    }

    /// Counts an accepted page.
    pub fn accept(&mut self, page: &Page) {
        let packets = self.joining.add(page);
        let Some(first) = packets.first() else {
            return;
        };
        if self.headers == HEADERS {
            let head = head::read(&first.bytes).expect("a right header");
            self.streams = head.streams;
            self.count = Count::new(head.pre_skip);
        }
        if self.headers > 0 {
            self.headers -= 1;
            return;
        }
        let listed = packets.iter().filter(|packet| packet.began.is_some());
        let read = |bytes: &[u8]| opus::read(bytes, self.streams).expect("a legal packet");
        let samples = listed.map(|packet| read(&packet.bytes).samples).sum();
        self.count.add(page, samples);
    }

    /// Changes bytes of the unfinished packet from a place on, as far as it goes.
    pub fn put(&mut self, place: usize, bytes: &[u8]) {
        let Some(packet) = &mut self.joining.unfinished else {
            return;
        };
        for (old, new) in packet.bytes.iter_mut().skip(place).zip(bytes) {
            *old = *new;
        }
    }

    /// Holds the totals of the reader that was fed to this count.
    pub fn check(&self, totals: Totals, case: impl Display) {
        self.count.check(totals, case);
    }
}
