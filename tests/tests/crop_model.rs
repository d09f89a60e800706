//! Holds the implementation that cropping is held to (tests/src/crop.rs) to what must be so of every
//! crop, by its own reader alone and with no call of the library.

use embulgri_tests::crop::{crop, crop_start, Whole, NO_START};
use embulgri_tests::crop_inputs::{stream, whole_stream};
use embulgri_tests::judging::{judge, Fault};
use embulgri_tests::ogg::NO_ROOM;
use embulgri_tests::random::Random;
use embulgri_tests::stamps::Entry;

const STREAMS: usize = 1_000;

/// The end stamps, the lengths and the frames.
fn stamps(packets: &[Entry]) -> Vec<[u64; 3]> {
    let stamps = packets.iter().map(|p| [p.end, p.length, p.frames]);
    stamps.collect()
}

/// Holds the crop that begins at a page to the pages and packets of the whole stream.
fn check_pages(whole: &Whole, page: u64, crop: &Whole) {
    let kept = whole.pages[..whole.headers]
        .iter()
        .chain(&whole.pages[page as usize..]);
    assert_eq!(crop.headers, whole.headers);
    assert_eq!(crop.pages.len(), kept.clone().count());
    for ((old, new), number) in kept.zip(&crop.pages).zip(0..) {
        let mut expected = old.page.clone();
        expected.sequence = number;
        assert_eq!(new.page, expected);
        assert_eq!(stamps(&new.packets), stamps(&old.packets));
    }
}

#[test]
fn a_crop_is_a_whole_stream_of_the_same_pages_and_packets() {
    let mut random = Random::of_run(185);
    let mut crops = 0;
    for _ in 0..STREAMS {
        let bytes = whole_stream(&mut random).bytes;
        let whole = Whole::of(&bytes).expect("a whole stream");
        for page in 0..whole.pages.len() as u64 + 2 {
            let begins = whole.starts().iter().any(|start| start[0] == page);
            assert_eq!(begins, whole.occasions(page).is_empty());
            let told = crop(&bytes, page, bytes.len());
            if !begins {
                assert_eq!(told, Err(NO_START));
                continue;
            }
            let made = told.expect("a page at which a crop begins");
            assert_eq!(made == bytes, page == whole.headers as u64);
            assert_eq!(crop(&bytes, page, made.len() - 1), Err(NO_ROOM));
            let cropped = Whole::of(&made).expect("a crop is whole");
            check_pages(&whole, page, &cropped);
            crops += 1;
        }
    }
    assert!(crops >= STREAMS);
}

#[test]
fn the_page_to_crop_at_is_the_last_that_is_early_enough() {
    let mut random = Random::of_run(186);
    let (mut found, mut none) = (0, 0);
    for _ in 0..STREAMS {
        let bytes = whole_stream(&mut random).bytes;
        let whole = Whole::of(&bytes).expect("a whole stream");
        let starts = whole.starts();
        assert!(starts.is_sorted_by_key(|&[_, start]| start));
        for &[page, start] in &starts {
            let told = crop_start(&bytes, page, start);
            assert_eq!(told, Ok([page, start]));
            assert_eq!(crop_start(&bytes, page, u64::MAX), told);
            found += 1;
        }
        let [first, start] = starts.first().copied().unwrap_or([u64::MAX; 2]);
        assert_eq!(crop_start(&bytes, first - 1, u64::MAX), Err(NO_START));
        if let Some(before) = start.checked_sub(1) {
            assert_eq!(crop_start(&bytes, u64::MAX, before), Err(NO_START));
            none += 1;
        }
    }
    assert!(found >= STREAMS && none >= STREAMS / 4);
}

#[test]
fn a_stream_that_is_not_whole_has_its_own_number() {
    let mut random = Random::of_run(187);
    for _ in 0..STREAMS {
        let bytes = stream(&mut random).bytes;
        if let Err(number) = judge(&bytes).map_err(Fault::number) {
            assert_eq!(crop(&bytes, 0, 0), Err(number));
            assert_eq!(crop_start(&bytes, 0, 0), Err(number));
        }
    }
}
