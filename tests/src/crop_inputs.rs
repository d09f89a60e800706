//! Streams for the random runs of cropping, mostly of few bytes, and pages that they do not have.

use crate::buffer_inputs::{buffer, expected, short_recording};
use crate::by_hand::NO_TAGS;
use crate::crop::Whole;
use crate::feeding::{CONTINUED, LAST};
use crate::head::{self, Head};
use crate::head_inputs::{head_of_family_0, with_table};
use crate::ogg;
use crate::random::Random;
use crate::reader::Reader;
use crate::recording::{date, lay, leave_unfinished, number, Recording, Written};
use crate::recording_inputs::{of_length, tiny, Sound};
use crate::stamps::Entry;

/// The bytes of a longer recording, at most.
const MOST_BYTES: usize = 2_500;
/// The lengths of packets that mostly go over several pages.
const LONGER: [usize; 6] = [254, 255, 256, 300, 510, 600];

/// A stream in a buffer.
pub struct Stream {
    pub bytes: Vec<u8>,
    /// The pages of the recording that would come next.
    pub later: Vec<Written>,
    /// How it was made.
    pub name: String,
}

/// The bytes of pages.
pub fn bytes_of(pages: &[Written]) -> Vec<u8> {
    pages
        .iter()
        .flat_map(|written| ogg::encode(&written.page))
        .collect()
}

/// A header of one stream, sometimes of two or three.
pub fn little_head(random: &mut Random) -> Head {
    let mut head = match random.below(4) {
        0 => {
            let streams = random.within(2..=3);
            with_table(random, 1, streams, (streams, 0))
        }
        _ => head_of_family_0(random),
    };
    head.pre_skip = *random.pick(&[0, 1, 312, 960, 3_840, 65_535]);
    head
}

/// A comment packet, which often goes over several pages.
fn little_comments(random: &mut Random) -> Vec<u8> {
    let more = match random.below(4) {
        0 => random.within(239..=900),
        _ => random.below(8),
    };
    [NO_TAGS, &random.bytes(more)].concat()
}

/// The packet of a header.
pub fn header(bytes: Vec<u8>) -> [Sound; 1] {
    [Sound { bytes, samples: 0 }]
}

/// A recording of few bytes on many pages.
pub fn little(random: &mut Random) -> Recording {
    let head = little_head(random);
    let mut pages = lay(random, &header(head::encode(&head)), &[255], false);
    let comments = header(little_comments(random));
    let few = [1, 2, 255];
    pages.extend(lay(random, &comments, &few, false));
    let headers = pages.len();
    let streams = head.streams as usize;
    let one_longer_in = *random.pick(&[3, 6, 100]);
    let sounds: Vec<Sound> = (0..random.within(1..=14))
        .map(|_| match random.one_in(one_longer_in) {
            true => {
                let length = *random.pick(&LONGER);
                of_length(random, streams, length)
            }
            false => tiny(random, streams),
        })
        .collect();
    let cuts = *random.pick(&[[1, 1, 1], [1, 1, 2], [1, 2, 4]]);
    let mut audio = lay(random, &sounds, &cuts, true);
    leave_unfinished(random, &mut audio);
    date(random, &mut audio, head.pre_skip);
    pages.extend(audio);
    number(random, &mut pages);
    Recording {
        head,
        pages,
        headers,
    }
}

/// A recording, mostly a little one, and else one of any kind that is not long.
fn any_recording(random: &mut Random) -> Recording {
    if !random.one_in(16) {
        return little(random);
    }
    loop {
        let recording = short_recording(random);
        let lengths = recording.pages.iter().map(|written| written.page.length());
        if lengths.sum::<usize>() <= MOST_BYTES {
            return recording;
        }
    }
}

/// A stream that is whole: all of a recording, or its first pages.
pub fn whole_stream(random: &mut Random) -> Stream {
    let Recording {
        mut pages, headers, ..
    } = any_recording(random);
    let count = match random.below(16) {
        0 => headers,
        1..=7 => random.within(headers..=pages.len()),
        _ => pages.len(),
    };
    let name = format!("{count} of {} pages", pages.len());
    let later = pages.split_off(count);
    Stream {
        bytes: bytes_of(&pages),
        later,
        name,
    }
}

/// A stream that mostly is not whole: a recording with a wrong page or damaged, without a whole header,
/// or cut anywhere.
pub fn wrong_stream(random: &mut Random, recording: Recording) -> Stream {
    let Recording { pages, headers, .. } = recording;
    let (bytes, name) = match random.below(16) {
        0 => (Vec::new(), "empty".to_string()),
        1 => {
            let some = random.below(headers);
            (bytes_of(&pages[..some]), format!("{some} header pages"))
        }
        2 => {
            let mut bytes = bytes_of(&pages);
            bytes.truncate(random.below(bytes.len()));
            let name = format!("cut at {}", bytes.len());
            (bytes, name)
        }
        way => {
            let few = match way {
                3..=5 => 1,
                6..=8 => headers + 1,
                _ => pages.len(),
            };
            let few = &pages[..few.min(pages.len())];
            let wrong = buffer(random, &expected(Reader::started(), few));
            (wrong.bytes, wrong.name)
        }
    };
    Stream {
        bytes,
        later: Vec::new(),
        name,
    }
}

/// A stream: three of four are whole.
pub fn stream(random: &mut Random) -> Stream {
    match random.one_in(4) {
        true => {
            let recording = any_recording(random);
            wrong_stream(random, recording)
        }
        false => whole_stream(random),
    }
}

/// Numbers of pages that a stream of so many pages does not have. The low half of most of those that
/// are large is the number of a page that it has.
pub fn missing_pages(random: &mut Random, pages: usize) -> [u64; 2] {
    let pages = pages as u64;
    let low = random.number() % pages.max(1);
    let some = random.below(100) as u64;
    let next = pages + *random.pick(&[0, 0, 1, some]);
    let any = random.number() | 1 << 32;
    let large = [
        low + (1 << 32),
        low + (1 << 63),
        (any >> 32 << 32) + low,
        any,
        u64::MAX,
    ];
    [next, *random.pick(&large)]
}

/// What whole streams are like.
pub const STREAM_CLASSES: [&str; 9] = [
    "two header pages",
    "more header pages",
    "headers only",
    "marked last",
    "not marked last",
    "a packet over pages",
    "a page of no lacing values",
    "a hole",
    "unfinished at the end",
];

/// What a whole stream is like.
pub fn stream_classes(whole: &Whole) -> impl Iterator<Item = &'static str> {
    let audio = &whole.pages[whole.headers..];
    let is_marked = |flag| audio.iter().any(|fed| fed.page.flags & flag != 0);
    let packets: Vec<&Entry> = audio.iter().flat_map(|fed| &fed.packets).collect();
    let last = audio.iter().rfind(|fed| !fed.page.lacing.is_empty());
    let is = [
        whole.headers == 2,
        whole.headers > 2,
        audio.is_empty(),
        is_marked(LAST),
        !is_marked(LAST),
        is_marked(CONTINUED),
        audio.iter().any(|fed| fed.page.lacing.is_empty()),
        packets
            .windows(2)
            .any(|two| two[1].end - two[1].length > two[0].end),
        last.is_some_and(|fed| fed.page.lacing.ends_with(&[255])),
    ];
    let classes = STREAM_CLASSES.into_iter().zip(is);
    classes.filter(|(_, is)| *is).map(|(name, _)| name)
}
