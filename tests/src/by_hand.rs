//! Readers and pages put together by hand, for feedings whose outcome is worked out by hand.

use crate::feed_calls::{Feeder, ENOUGH};
use crate::feeding::FIRST;
use crate::head::{self, Head};
use crate::head_inputs::without_table;
use crate::ogg::{self, Page};
use crate::pieces::put_pieces;
use crate::random::Random;
use crate::stamps::Entry;

/// A packet of 960 samples, in one frame.
pub const SOUND: &[u8] = &[0x08];
/// Comments of no vendor and of no comment.
pub const NO_TAGS: &[u8] = b"OpusTags\0\0\0\0\0\0\0\0";

/// The place of the stream count in a reader's numbers.
const STREAMS: usize = 7;

/// What a packet is listed as: its end stamp, its length, its kept count and its number of frames.
pub type Listed = (u64, u64, u64, u64);

/// A header of one stream.
pub fn head_of(pre_skip: u64) -> Head {
    let mut head = without_table(&mut Random::of_run(96), 2);
    head.pre_skip = pre_skip;
    head
}

/// The bytes of a page. Each piece ends a packet, but for the last where it is a multiple of 255
/// bytes and not empty.
pub fn page(flags: u64, granule: u64, sequence: u32, pieces: &[&[u8]]) -> Vec<u8> {
    let count = pieces.len();
    let ends = |place, bytes: &[u8]| {
        place + 1 < count || bytes.is_empty() || !bytes.len().is_multiple_of(255)
    };
    let pieces: Vec<(Vec<u8>, bool)> = pieces
        .iter()
        .enumerate()
        .map(|(place, bytes)| (bytes.to_vec(), ends(place, bytes)))
        .collect();
    page_of(flags, granule, sequence, &pieces)
}

/// The bytes of a page of pieces, each with whether it ends its packet.
pub fn page_of(flags: u64, granule: u64, sequence: u32, pieces: &[(Vec<u8>, bool)]) -> Vec<u8> {
    let mut page = Page {
        flags,
        granule,
        serial: 7,
        sequence,
        lacing: Vec::new(),
        body: Vec::new(),
    };
    put_pieces(&mut page, pieces);
    ogg::encode(&page)
}

/// The packets listed of a page, or the refusal's number.
pub fn feed(feeder: &mut Feeder, page: &[u8]) -> Result<Vec<Listed>, u32> {
    let listing = feeder.feed(page, ENOUGH, "by hand")?;
    let fields = |entry: &Entry| (entry.end, entry.length, entry.kept, entry.frames);
    Ok(listing.entries.iter().map(fields).collect())
}

/// A reader whose headers are complete.
pub fn full(pre_skip: u64) -> Feeder {
    let mut feeder = Feeder::started();
    let head = head::encode(&head_of(pre_skip));
    assert_eq!(feed(&mut feeder, &page(FIRST, 0, 0, &[&head])), Ok(vec![]));
    assert_eq!(feed(&mut feeder, &page(0, 0, 1, &[NO_TAGS])), Ok(vec![]));
    feeder
}

/// A reader opened part way.
pub fn opened(pre_skip: u64) -> Feeder {
    let mut feeder = Feeder::of([9; 16]);
    assert_eq!(feeder.open(&head_of(pre_skip), "by hand"), 0);
    feeder
}

/// The reader with another number of streams.
pub fn of_streams(mut feeder: Feeder, streams: u64) -> Feeder {
    let mut numbers = feeder.numbers();
    numbers[STREAMS] = streams;
    feeder.set(numbers);
    feeder
}
