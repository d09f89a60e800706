//! The ways to damage a stream that is to be salvaged.

use crate::buffer_inputs::short_recording;
use crate::feeding::{CONTINUED, FIRST, LAST, NO_GRANULE};
use crate::inputs::{self, change, Change};
use crate::ogg::{self, sum};
use crate::pieces::put_pieces;
use crate::random::Random;
use crate::salvage_stream::{Part, Stream};

/// The full values of a piece that passes 61,440 bytes.
const LONG: usize = 241;
/// The bytes of the longest page that is copied, for the time it needs.
const COPIED: usize = 20_000;

pub const DAMAGES: &[Change<Stream>] = &[
    change("a page missing", &[], |random, stream| {
        if let Some(place) = stream.page(random, 1) {
            stream.parts.remove(place);
        }
    }),
    change("several pages missing", &[], |random, stream| {
        if let Some(place) = stream.page(random, stream.headers) {
            let end = (place + random.within(2..=4)).min(stream.parts.len());
            stream.parts.drain(place..end);
        }
    }),
    change("a page twice", &[], |random, stream| {
        if let Some(place) = stream.page(random, 0) {
            let page = stream.page_at(place);
            stream.insert(place, page);
        }
    }),
    change("a page again later", &[], |random, stream| {
        if let Some(place) = stream.page(random, 0) {
            let later = random.within(place..=stream.parts.len());
            let page = stream.page_at(place);
            stream.insert(later, page);
        }
    }),
    change("two neighbours exchanged", &[], |random, stream| {
        if let Some(place) = stream.page(random, 1) {
            stream.parts.swap(place - 1, place);
        }
    }),
    change("two pages exchanged", &[], |random, stream| {
        let places = [stream.page(random, 0), stream.page(random, 0)];
        if let [Some(one), Some(other)] = places {
            stream.parts.swap(one, other);
        }
    }),
    change("a bit of a page flipped", &[], |random, stream| {
        stream.spoil(random, |random, bytes| {
            let place = random.below(bytes.len());
            bytes[place] ^= 1 << random.below(8);
        })
    }),
    change("a byte of a page missing", &[], |random, stream| {
        stream.spoil(random, |random, bytes| {
            bytes.remove(random.below(bytes.len()));
        })
    }),
    change("the start of a page alone", &[], |random, stream| {
        stream.spoil(random, |random, bytes| {
            bytes.truncate(random.below(bytes.len()));
        })
    }),
    change("bytes between pages", &[], |random, stream| {
        let (place, count) = (stream.place(random), random.within(1..=80));
        stream.insert_bytes(place, random.bytes(count));
    }),
    change("bytes before the stream", &[], |random, stream| {
        let count = random.within(1..=200);
        stream.insert_bytes(0, random.bytes(count));
    }),
    change("bytes after the stream", &[], |random, stream| {
        let count = random.within(1..=200);
        stream.insert_bytes(stream.parts.len(), random.bytes(count));
    }),
    change("capture patterns alone", &[], |random, stream| {
        let place = stream.place(random);
        stream.insert_bytes(place, b"OggS\0OggS".to_vec());
    }),
    change("the end cut off", &[], |random, stream| {
        let mut bytes = stream.bytes();
        let least = bytes.len() / 2;
        bytes.truncate(random.within(least..=bytes.len()));
        stream.parts = vec![Part::Bytes(bytes)];
    }),
    change("a foreign page", &[], |random, stream| {
        let place = stream.place(random);
        stream.insert(place, inputs::page(random));
    }),
    change("a page in a foreign one", &[], |random, stream| {
        if let Some(place) = stream.page(random, 0) {
            let inner = ogg::encode(&stream.page_at(place));
            let mut page = inputs::page(random);
            if inner.len() < COPIED {
                put_pieces(&mut page, &[(inner, true)]);
                stream.insert(place, page);
            }
        }
    }),
    change(
        "pages of another stream before it",
        &[],
        |random, stream| {
            let serial = random.field() as u32;
            let (pages, count) = (short_recording(random).pages, random.within(1..=4));
            for written in pages.into_iter().take(count).rev() {
                let mut page = written.page;
                page.serial = serial;
                stream.insert(0, page);
            }
        },
    ),
    change("any page of its serial", &[], |random, stream| {
        let (place, copied) = (stream.place(random), stream.page(random, 0));
        let mut page = inputs::page(random);
        page.serial = stream.page_at(copied.unwrap_or(0)).serial;
        if page.length() < COPIED {
            stream.insert(place, page);
        }
    }),
    change("an end mark in the middle", &[], |random, stream| {
        stream.change(random, stream.headers, |_, page| page.flags |= LAST)
    }),
    change("no end mark", &[], |random, stream| {
        stream.change(random, stream.headers, |_, page| page.flags &= !LAST)
    }),
    change("an unknown flag", &[], |random, stream| {
        stream.change(random, 1, |random, page| page.flags |= 8 << random.below(5))
    }),
    change("a first mark again", &[], |random, stream| {
        stream.change(random, 1, |_, page| page.flags |= FIRST)
    }),
    change("no first mark", &[], |random, stream| {
        let first = random.one_in(2).then_some(0);
        stream.change_at(random, first, |_, page| page.flags &= !FIRST)
    }),
    change("a continued mark changed", &[], |random, stream| {
        stream.change(random, 1, |_, page| page.flags ^= CONTINUED)
    }),
    change("another granule position", &[], |random, stream| {
        stream.change(random, 1, |random, page| {
            page.granule = match random.below(4) {
                0 => NO_GRANULE,
                1 => 0,
                2 => page.granule.wrapping_sub(random.below(3_000) as u64),
                _ => random.number() >> random.below(40),
            }
        })
    }),
    change("another number", &[], |random, stream| {
        stream.change(random, 1, |random, page| {
            let more = random.within(1..=6) as u32;
            page.sequence = page.sequence.wrapping_add(more)
        })
    }),
    change("numbers raised from a page on", &[], |random, stream| {
        let (from, more) = (stream.place(random), random.within(1..=3));
        stream.raise(from, more as u32)
    }),
    change("numbers past 2^32", &[], |random, stream| {
        stream.raise(0, u32::MAX - random.below(12) as u32)
    }),
    change("an empty page", &[], empty_page),
    change("a packet over two pages", &[], over_two_pages),
    change("a header page missing", &[], |random, stream| {
        if let Some(place) = stream.header(random).filter(|_| random.one_in(2)) {
            stream.parts.remove(place);
        }
    }),
    change("a piece after a header", &[], |random, stream| {
        let place = stream.header(random);
        stream.change_at(random, place, |random, page| {
            if page.lacing.len() < 255 {
                page.lacing.push(255);
                page.body.extend(random.bytes(255));
            }
        })
    }),
    change("a header packet damaged", &[], |random, stream| {
        let place = stream.header(random).filter(|_| random.one_in(4));
        stream.change_at(random, place, |random, page| {
            if !page.body.is_empty() {
                let place = random.below(page.body.len().min(12));
                page.body[place] ^= 1 << random.below(8);
            }
        })
    }),
    change("a piece that is too long", &[], |random, stream| {
        stream.change(random, stream.headers, |_, page| {
            if page.lacing.len() + LONG <= 255 {
                page.lacing.extend([255; LONG]);
                page.body.extend([0; 255 * LONG]);
            }
        })
    }),
    change("a byte of a packet changed", &[], |random, stream| {
        stream.change(random, stream.headers, |random, page| {
            if !page.body.is_empty() {
                let place = random.below(page.body.len());
                page.body[place] = random.byte();
            }
        })
    }),
];

/// Puts a page of no lacing values in, with the number that the next page has, and sometimes raises
/// the others.
fn empty_page(random: &mut Random, stream: &mut Stream) {
    let place = stream.place(random);
    let mut page = stream.page_at(place);
    (page.flags, page.granule) = (random.below(2) as u64, NO_GRANULE);
    put_pieces(&mut page, &[]);
    if random.one_in(2) {
        stream.raise(place, 1);
    }
    stream.insert(place, page);
}

/// Makes two pages of one, after its first full value.
fn over_two_pages(random: &mut Random, stream: &mut Stream) {
    let Some(place) = stream.page(random, stream.headers) else {
        return;
    };
    let mut front = stream.page_at(place);
    let Some(full) = front.lacing.iter().position(|&value| value == 255) else {
        return;
    };
    stream.raise(place, 1);
    let mut back = stream.page_at(place);
    back.lacing = front.lacing.split_off(full + 1);
    back.body = front.body.split_off(sum(&front.lacing));
    back.flags |= CONTINUED;
    front.flags &= !LAST;
    if full == 0 {
        front.granule = NO_GRANULE;
    }
    stream.parts[place] = Part::Page(back);
    stream.insert(place, front);
}
