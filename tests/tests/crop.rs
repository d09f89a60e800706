//! Holds cropping to the rules in docs/RULES.md: random streams, whole and not, cropped at every page and
//! at pages that they do not have, into outputs of all lengths; the page to crop at for positions around
//! the packets; and what a reader tells of a crop and of pages after it.

use embulgri_tests::buffer_pages::page_end;
use embulgri_tests::crop::{Occasion, Whole, NO_START};
use embulgri_tests::crop_calls::{check_crop, check_start};
use embulgri_tests::crop_further::Read;
use embulgri_tests::crop_inputs::{
    missing_pages, stream, stream_classes, whole_stream, Stream, STREAM_CLASSES,
};
use embulgri_tests::crop_questions::{question, Question, LIMITS, POSITIONS};
use embulgri_tests::crop_readers::Listed;
use embulgri_tests::feeding::REFUSALS;
use embulgri_tests::judging::HEADERS_INCOMPLETE;
use embulgri_tests::ogg::NO_ROOM;
use embulgri_tests::random::{times, Random};
use embulgri_tests::tally::{say, Classes, Tally};

const STREAMS: usize = 20_000;
const LEAST_CALLS: usize = 200_000;
const LEAST_OF_EACH: usize = 200;
/// How often the page to crop a stream at is asked for, the stream being whole or not.
const QUESTIONS: usize = 12;
const QUESTIONS_NOT_WHOLE: usize = 24;
const READ_STREAMS: usize = 8_000;
const LEAST_CROPS: usize = 20_000;
const LEAST_FURTHER: usize = 100_000;
const CROPPED_AGAIN: usize = 500;
const SMALL_STREAMS: usize = 120;
const LONGEST_SMALL: usize = 1_000;

/// A stream is never refused for lack of room to feed, nor for what an opened reader lacks.
const NEVER: [u32; 2] = [1, 19];

/// What further pages are refused by: 10 and 12 to 14 are for headers, and 18 for the first audio packets.
const FURTHER_REFUSALS: [u32; 10] = [2, 5, 6, 7, 8, 9, 11, 15, 16, 17];

/// The numbers of a stream that is not whole.
fn stream_numbers() -> Vec<u32> {
    let refusals = REFUSALS.into_iter().filter(|n| !NEVER.contains(n));
    refusals.chain([HEADERS_INCOMPLETE]).collect()
}

/// The outputs that are lent where a crop begins at a page.
const OUTPUTS: [&str; 6] = [
    "exact",
    "longer",
    "the stream's length",
    "one short",
    "shorter",
    "zero",
];

/// Outputs for a crop of so many bytes: three that hold it and one that does not.
fn outputs(random: &mut Random, crop: usize, stream: usize) -> [(usize, &'static str); 4] {
    let lengths = [
        crop,
        crop + random.within(1..=80),
        stream,
        crop - 1,
        random.below(crop),
        0,
    ];
    let short = random.within(3..=5);
    [0, 1, 2, short].map(|place| (lengths[place], OUTPUTS[place]))
}

/// Crops a stream at a page: where a crop begins there into outputs of the lengths around its own, and
/// else into outputs of any, fewer of them where the stream is whole.
fn crop_at(
    random: &mut Random,
    Stream { bytes, name, .. }: &Stream,
    whole: &Result<Whole, u32>,
    page: u64,
    counts: &mut Counts,
) {
    let told = match whole {
        Ok(whole) => whole.crop(page),
        &Err(number) => Err(number),
    };
    let told = told.as_deref().map_err(|&number| number);
    let Ok(crop) = told else {
        let any = [0, bytes.len(), random.below(bytes.len() + 80)];
        let one = [*random.pick(&any)];
        let rooms = if whole.is_ok() { &one[..] } else { &any };
        for &room in rooms {
            counts.crops.add(check_crop(bytes, page, room, told, name));
        }
        return;
    };
    for (room, output) in outputs(random, crop.len(), bytes.len()) {
        counts.crops.add(check_crop(bytes, page, room, told, name));
        counts.calls.add(format!("output {output}"));
    }
}

/// The classes of the calls on whole streams: by what they are lent where a crop begins at the page, and
/// else by the only reason why none does.
fn call_classes() -> Vec<String> {
    let outputs = OUTPUTS.map(|name| format!("output {name}"));
    let occasions = Occasion::ALL.map(|occasion| format!("only {}", occasion.name()));
    outputs.into_iter().chain(occasions).collect()
}

fn add_occasion(classes: &mut Classes, whole: &Whole, page: u64) {
    if let [occasion] = whole.occasions(page)[..] {
        classes.add(format!("only {}", occasion.name()));
    }
}

/// How many pages a buffer is cut into, whole or not.
fn pages_in(bytes: &[u8]) -> usize {
    let (mut start, mut pages) = (0, 0);
    while start < bytes.len() {
        start = page_end(bytes, start as u64).unwrap_or(bytes.len());
        pages += 1;
    }
    pages
}

/// The counts of a run.
#[derive(Default)]
struct Counts {
    crops: Tally,
    calls: Classes,
    starts: Tally,
    questions: Classes,
    streams: Classes,
}

/// Crops a stream at every page and at pages that it does not have.
fn crop_everywhere(
    random: &mut Random,
    stream: &Stream,
    whole: &Result<Whole, u32>,
    counts: &mut Counts,
) {
    let pages = pages_in(&stream.bytes);
    let missing = missing_pages(random, pages);
    for page in (0..pages as u64).chain(missing) {
        crop_at(random, stream, whole, page, counts);
        if let Ok(whole) = whole {
            add_occasion(&mut counts.calls, whole, page);
        }
    }
}

/// Asks for the page to crop a stream at.
fn ask(random: &mut Random, stream: &Stream, whole: &Result<Whole, u32>, counts: &mut Counts) {
    let Stream { bytes, name, .. } = stream;
    let Ok(stream) = whole else {
        for _ in 0..QUESTIONS_NOT_WHOLE {
            let any = [random.field(), random.field()];
            counts.starts.add(check_start(bytes, whole, any, name));
        }
        return;
    };
    for _ in 0..QUESTIONS {
        let Question { numbers, names } = question(random, stream);
        counts.starts.add(check_start(bytes, whole, numbers, name));
        for name in names {
            counts.questions.add(name.to_string());
        }
    }
}

#[test]
fn any_stream_is_cropped_at_every_page_by_the_rules() {
    let mut random = Random::of_run(181);
    let mut counts = Counts::default();
    for number in 0..STREAMS * times() {
        let mut stream = stream(&mut random);
        stream.name += &format!(", stream {number}");
        let whole = Whole::of(&stream.bytes);
        crop_everywhere(&mut random, &stream, &whole, &mut counts);
        ask(&mut random, &stream, &whole, &mut counts);
        if let Ok(whole) = &whole {
            for class in stream_classes(whole) {
                counts.streams.add(class.to_string());
            }
        }
    }
    let refusals = [&stream_numbers()[..], &[NO_START]].concat();
    let name = "pages to crop at";
    counts
        .starts
        .finish_by(name, LEAST_CALLS, &refusals, LEAST_OF_EACH);
    let refusals = [&refusals[..], &[NO_ROOM]].concat();
    let name = "streams cropped";
    counts
        .crops
        .finish_by(name, LEAST_CALLS, &refusals, LEAST_OF_EACH);
    counts.calls.finish(&call_classes(), LEAST_OF_EACH);
    let names: Vec<&str> = [&LIMITS[..], &POSITIONS].concat();
    let names: Vec<String> = names.into_iter().map(str::to_string).collect();
    counts.questions.finish(&names, LEAST_OF_EACH);
    let names = STREAM_CLASSES.map(str::to_string);
    counts.streams.finish(&names, LEAST_OF_EACH);
}

#[test]
fn every_limit_and_every_position_around_a_packet_is_asked_for() {
    let mut random = Random::of_run(182);
    let mut tally = Tally::default();
    let mut left = SMALL_STREAMS;
    while left > 0 {
        let bytes = whole_stream(&mut random).bytes;
        if bytes.len() > LONGEST_SMALL {
            continue;
        }
        left -= 1;
        let told = Whole::of(&bytes);
        let whole = told.as_ref().expect("a whole stream");
        let packets = whole.pages.iter().flat_map(|fed| &fed.packets);
        let around = packets.flat_map(|packet| {
            let start = packet.end - packet.length;
            [start.saturating_sub(1), start, start + 1]
        });
        for position in around.chain([0, u64::MAX]) {
            for last in (0..whole.pages.len() as u64 + 2).chain([1 << 32, u64::MAX]) {
                let numbers = [last, position];
                tally.add(check_start(&bytes, &told, numbers, left));
            }
        }
    }
    tally.finish("every limit and position", 10_000, &[NO_START]);
}

#[test]
fn a_crop_is_read_as_the_whole_stream_was_and_so_are_further_pages() {
    let mut random = Random::of_run(183);
    let mut tally = Tally::default();
    let mut crops = 0;
    for number in 0..READ_STREAMS * times() {
        let mut stream = whole_stream(&mut random);
        stream.name += &format!(", stream {number}");
        let whole = Whole::of(&stream.bytes).expect("a whole stream");
        let listed = Listed::of(&stream.bytes);
        for [page, _] in whole.starts() {
            let crop = whole.crop(page).expect("a page at which a crop begins");
            check_crop(&stream.bytes, page, crop.len(), Ok(&crop), &stream.name);
            let read = Read {
                whole: &whole,
                listed: &listed,
                page,
            };
            for answer in read.check(&mut random, &crop, &stream) {
                tally.add(answer);
            }
            crops += 1;
        }
    }
    say(&format!("crops read: {crops}"));
    assert!(crops >= LEAST_CROPS);
    let name = "further pages to the readers of both";
    tally.finish_by(name, LEAST_FURTHER, &FURTHER_REFUSALS, LEAST_OF_EACH);
}

#[test]
fn a_crop_of_a_crop_is_a_crop_of_the_whole_stream() {
    let mut random = Random::of_run(184);
    for number in 0..CROPPED_AGAIN {
        let bytes = whole_stream(&mut random).bytes;
        let whole = Whole::of(&bytes).expect("a whole stream");
        let starts = whole.starts();
        for &[first, _] in &starts {
            let crop = whole.crop(first).expect("a page at which a crop begins");
            for &[page, _] in starts.iter().filter(|[page, _]| *page >= first) {
                let again = whole.crop(page);
                let told = again.as_deref().map_err(|&number| number);
                let page = page - u64::from(whole.shift(first));
                assert_eq!(check_crop(&crop, page, crop.len(), told, number), 0);
            }
        }
    }
}
