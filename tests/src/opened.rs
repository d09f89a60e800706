//! Readers opened part way, held to what the full reader listed from there on.

use crate::accepted::Packet;
use crate::calls::found_head;
use crate::feed_calls::{Feeder, Room};
use crate::feed_choice::{fault, room};
use crate::feeding::LAST;
use crate::head::Head;
use crate::ogg::{self, Page};
use crate::random::Random;
use crate::reader::Phase;
use crate::recording::Written;
use crate::stamps::{Entry, NO_POSITION};

/// An audio page that the full reader accepted, and what it listed there.
pub struct Accepted {
    pub page: Page,
    pub listed: Vec<Entry>,
}

/// A full reader, and what it accepted: the first page's header, and the audio pages.
pub struct Full {
    pub feeder: Feeder,
    pub head: Option<Head>,
    pub stream: Vec<Accepted>,
}

impl Full {
    pub fn started() -> Full {
        Full {
            feeder: Feeder::started(),
            head: None,
            stream: Vec::new(),
        }
    }

    pub fn feed(&mut self, bytes: &[u8], room: Room) {
        let phase = self.feeder.reader().phase;
        let Ok(listing) = self.feeder.feed(bytes, room, "the full reader") else {
            return;
        };
        let page = ogg::read(bytes).expect("a page");
        let listed = listing.entries;
        match phase {
            Phase::First => self.head = Some(found_head(&page.body)),
            Phase::Comment => (),
            _ => self.stream.push(Accepted { page, listed }),
        }
    }
}

/// Opens a second reader at a page of the stream, feeds it the stream from there on with pages that
/// it refuses between, and holds it to what the full reader listed. Gives each answer.
pub fn check_opened(
    random: &mut Random,
    head: &Head,
    stream: &[Accepted],
    packets: &[Vec<Packet>],
    first: usize,
) -> Vec<u32> {
    let mut feeder = Feeder::of([random.number(); 16]);
    let garbage = random.bytes(2_000);
    feeder.put_in_carry(0, &garbage);
    assert_eq!(feeder.open(head, first), 0);
    let mut stands = false;
    let mut answers = Vec::new();
    for (accepted, packets) in stream.iter().zip(packets).skip(first) {
        feed_refused(random, &mut feeder, &accepted.page);
        let is_last = accepted.page.flags & LAST != 0;
        let completes = !packets.is_empty();
        let bytes = ogg::encode(&accepted.page);
        let told = feeder.feed(&bytes, room(random), format!("opened at {first}"));
        let listed = told.map(|listing| stamps(&listing.entries));
        if is_last && completes && !stands {
            assert_eq!(listed, Err(NO_POSITION));
        } else {
            let begun_before = packets.iter().filter(|packet| packet.began < Some(first));
            let expected = stamps(&accepted.listed[begun_before.count()..]);
            assert_eq!(listed, Ok(expected), "opened at {first}");
        }
        stands |= completes;
        answers.push(listed.err().unwrap_or(0));
    }
    answers
}

/// The end stamps, the lengths and the frames.
fn stamps(entries: &[Entry]) -> Vec<(u64, u64, u64)> {
    entries
        .iter()
        .map(|e| (e.end, e.length, e.frames))
        .collect()
}

/// Feeds pages that the reader refuses.
fn feed_refused(random: &mut Random, feeder: &mut Feeder, page: &Page) {
    for _ in 0..random.below(3) {
        let written = Written {
            page: page.clone(),
            lengths: vec![960],
        };
        let wrong = fault(random, feeder.reader(), &written);
        if feeder.foretold(&wrong.bytes, wrong.room).is_err() {
            let told = feeder.feed(&wrong.bytes, wrong.room, wrong.name);
            assert!(told.is_err());
        }
    }
}
