//! Holds the judgement of a stream in a buffer to the rules in docs/RULES.md (section 15): on random
//! recordings, whole, with a wrong page, damaged, and cut; and on buffers cut at every byte.

use embulgri_tests::buffer_inputs::{buffer, expected, short_recording, Expected};
use embulgri_tests::feeding::REFUSALS;
use embulgri_tests::ffi;
use embulgri_tests::judging::{judge, Fault, HEADERS_INCOMPLETE};
use embulgri_tests::random::{times, Random};
use embulgri_tests::reader::Reader;
use embulgri_tests::reading::Reading;
use embulgri_tests::tally::{say, Tally};

const RECORDINGS: usize = 20_000;
const LEAST_OF_EACH: usize = 50;
const CUT_RECORDINGS: usize = 8;
const LONGEST_CUT: usize = 2_000;

/// A stream is never refused for lack of room, nor for what an opened reader lacks.
const NEVER: [u32; 2] = [1, 19];

/// The library's answer, held to the rules: the page is stored where one is refused, and nowhere
/// else.
fn judged(bytes: &[u8], case: &str) -> Result<usize, Fault> {
    let found = Reading::by_library(|page: &mut [u64; 1]| ffi::judge(bytes, &mut page[0]));
    let told = judge(bytes);
    let wanted = match told {
        Ok(_) => Reading::refused(0),
        Err(Fault::Page { number, page }) => Reading::stored(number, [page]),
        Err(fault) => Reading::refused(fault.number()),
    };
    assert_eq!(found, wanted, "{case}");
    told
}

/// The bytes of a recording's pages.
fn bytes_of(pages: &[Expected]) -> Vec<u8> {
    pages.iter().flat_map(|page| page.bytes.clone()).collect()
}

#[test]
fn random_recordings_are_judged_by_the_rules() {
    let mut random = Random::of_run(131);
    let mut tally = Tally::default();
    let mut later = 0;
    for number in 0..RECORDINGS * times() {
        let recording = short_recording(&mut random);
        let pages = expected(Reader::started(), &recording.pages);
        let case = format!("recording {number}");
        let told = judged(&bytes_of(&pages), &case);
        assert_eq!(told, Ok(pages.len()), "{case}");
        tally.add(0);
        let wrong = buffer(&mut random, &pages);
        let told = judged(&wrong.bytes, &format!("{case}, {}", wrong.name));
        tally.add(told.map_or_else(Fault::number, |_| 0));
        later += usize::from(matches!(told, Err(Fault::Page { page, .. }) if page > 0));
        let some = random.below(recording.headers + 1).min(pages.len());
        let told = judged(&bytes_of(&pages[..some]), &format!("{case}, {some} pages"));
        tally.add(told.map_or_else(Fault::number, |_| 0));
    }
    say(&format!("refused at a page after the first: {later}"));
    let refusals = REFUSALS.into_iter().filter(|n| !NEVER.contains(n));
    let refusals: Vec<u32> = refusals.chain([HEADERS_INCOMPLETE]).collect();
    let name = "streams judged";
    tally.finish_by(name, 3 * RECORDINGS, &refusals, LEAST_OF_EACH);
}

#[test]
fn an_empty_buffer_has_no_headers() {
    assert_eq!(judged(&[], "empty"), Err(Fault::HeadersIncomplete));
}

#[test]
fn a_stream_cut_at_every_byte_is_whole_after_its_headers_at_the_end_of_a_page_alone() {
    let mut random = Random::of_run(132);
    let mut left = CUT_RECORDINGS;
    while left > 0 {
        let recording = short_recording(&mut random);
        let pages = expected(Reader::started(), &recording.pages);
        let bytes = bytes_of(&pages);
        if pages.len() < 5 || bytes.len() > LONGEST_CUT {
            continue;
        }
        left -= 1;
        let mut ends = vec![0];
        for page in &pages {
            ends.push(ends[ends.len() - 1] + page.bytes.len());
        }
        for cut in 0..=bytes.len() {
            let told = judged(&bytes[..cut], &format!("recording {left}, cut at {cut}"));
            let whole = ends.iter().position(|&end| end == cut);
            match whole {
                Some(count) if count >= recording.headers => assert_eq!(told, Ok(count)),
                Some(_) => assert_eq!(told, Err(Fault::HeadersIncomplete)),
                None => assert!(matches!(told, Err(Fault::Page { number: 3, .. }))),
            }
        }
    }
}
