//! Streams for the random runs of checking, mostly of few bytes: made to have some findings and no others,
//! and made wrong; and the lists that a call is lent.

use crate::buffer_inputs::expected;
use crate::check::LISTS;
use crate::check_audio::{audio, Wanted};
use crate::check_comments::{comments, Comments};
use crate::crop_inputs::{self, bytes_of, header, little_head, wrong_stream};
use crate::feed_choice::fault;
use crate::head;
use crate::random::Random;
use crate::reader::Reader;
use crate::recording::{lay, number, Recording};

/// The numbers of lacing values that the pages of the comments take.
const FEW: [usize; 3] = [1, 2, 255];

/// A stream in a buffer.
pub struct Input {
    pub bytes: Vec<u8>,
    /// How it was made.
    pub name: String,
    /// What its comments have that is nearly a tag.
    pub ways: Vec<&'static str>,
}

/// A recording, and how it was made.
struct Made {
    recording: Recording,
    name: String,
    ways: Vec<&'static str>,
}

impl Made {
    /// A recording of these audio pages' findings, or one of no audio pages.
    fn of(random: &mut Random, wanted: Option<Wanted>, is_tagged: bool) -> Made {
        let head = little_head(random);
        let Comments { bytes, ways } = comments(random, is_tagged);
        let mut pages = lay(random, &header(head::encode(&head)), &[255], false);
        pages.extend(lay(random, &header(bytes), &FEW, false));
        let headers = pages.len();
        if let Some(wanted) = wanted {
            pages.extend(audio(random, wanted, head.streams, head.pre_skip));
        }
        number(random, &mut pages);
        Made {
            name: format!("{wanted:?}, tagged: {is_tagged}, {ways:?}"),
            recording: Recording {
                head,
                pages,
                headers,
            },
            ways,
        }
    }

    /// One of any findings, each as often.
    fn any(random: &mut Random) -> Made {
        let wanted = Wanted::any(random);
        let is_tagged = random.one_in(2);
        Made::of(random, Some(wanted), is_tagged)
    }

    fn input(self) -> Input {
        Input {
            bytes: bytes_of(&self.recording.pages),
            name: self.name,
            ways: self.ways,
        }
    }
}

/// A stream that is whole and has these findings: of its audio pages, and of its comments.
pub fn wanted_stream(random: &mut Random, wanted: Option<Wanted>, is_tagged: bool) -> Input {
    Made::of(random, wanted, is_tagged).input()
}

/// A stream that is whole: made for any findings, without audio, cut after a page, or any other.
pub fn whole_input(random: &mut Random) -> Input {
    match random.below(16) {
        0 => {
            let is_tagged = random.one_in(2);
            wanted_stream(random, None, is_tagged)
        }
        1 => {
            let mut made = Made::any(random);
            let Recording { pages, headers, .. } = &mut made.recording;
            pages.truncate(random.within(*headers..=pages.len()));
            made.name += &format!(", the first {} pages", pages.len());
            made.input()
        }
        2 => {
            let stream = crop_inputs::whole_stream(random);
            Input {
                bytes: stream.bytes,
                name: stream.name,
                ways: Vec::new(),
            }
        }
        3 => {
            let wanted = Wanted::without_findings();
            wanted_stream(random, Some(wanted), false)
        }
        _ => Made::any(random).input(),
    }
}

/// A stream with one page made wrong.
fn faulty_input(random: &mut Random) -> Input {
    let mut made = Made::any(random);
    let mut pages = expected(Reader::started(), &made.recording.pages);
    let place = random.below(pages.len());
    let page = &mut pages[place];
    let fault = fault(random, page.reader.clone(), &page.written);
    page.bytes = fault.bytes;
    made.name += &format!(", page {place}: {}", fault.name);
    Input {
        bytes: pages.into_iter().flat_map(|page| page.bytes).collect(),
        ..made.input()
    }
}

/// A stream that mostly is not whole: half have one page made wrong, and half are wrong in any way.
pub fn wrong_input(random: &mut Random) -> Input {
    if random.one_in(2) {
        return faulty_input(random);
    }
    let made = Made::any(random);
    let stream = wrong_stream(random, made.recording);
    Input {
        bytes: stream.bytes,
        name: format!("{}, {}", made.name, stream.name),
        ways: made.ways,
    }
}

/// A stream: more than half are whole.
pub fn input(random: &mut Random) -> Input {
    match random.one_in(2) {
        true => wrong_input(random),
        false => whole_input(random),
    }
}

/// The lists that are lent: first those that hold the findings.
pub const ROOMS: [&str; 10] = [
    "both exact",
    "both longer",
    "kinds longer",
    "pages longer",
    "kinds one short",
    "pages one short",
    "both one short",
    "kinds empty",
    "pages empty",
    "both empty",
];
const ENOUGH: usize = 4;

/// Lists for so many findings: all that hold them, and two that do not, if there are findings.
pub fn rooms(random: &mut Random, findings: usize) -> Vec<([usize; LISTS], &'static str)> {
    let n = findings;
    let [a, b] = [(); 2].map(|()| n + random.within(1..=9));
    let short = n.saturating_sub(1);
    let any = *random.pick(&[n, a]);
    let lengths = [
        [n, n],
        [a, b],
        [a, n],
        [n, a],
        [short, any],
        [any, short],
        [short, short],
        [0, any],
        [any, 0],
        [0, 0],
    ];
    let mut places: Vec<usize> = (0..ENOUGH).collect();
    if n > 0 {
        places.extend([(); 2].map(|()| random.within(ENOUGH..=ROOMS.len() - 1)));
    }
    let lent = places
        .into_iter()
        .map(|place| (lengths[place], ROOMS[place]));
    lent.collect()
}

/// Lists for a stream that is refused, whatever they are.
pub fn any_rooms(random: &mut Random) -> [[usize; LISTS]; 3] {
    let [a, b, c] = [(); 3].map(|()| random.within(1..=20));
    [[0, 0], [a, b], *random.pick(&[[0, c], [c, 0], [c, c]])]
}
