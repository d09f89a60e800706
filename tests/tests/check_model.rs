//! Holds the implementation that checking is held to (tests/src/check.rs) to what must be so of every
//! stream, by its pages alone and with no call of the library.

use embulgri_tests::accepted::Joining;
use embulgri_tests::check::{
    check, findings, replay_gain_name, stored, Finding, HOLE, LONG_TRIM, NAMES, NO_END,
    REPLAY_GAIN, UNFINISHED,
};
use embulgri_tests::check_audio::{End, Wanted};
use embulgri_tests::check_classes::{kind_sets, kinds_of};
use embulgri_tests::check_inputs::{wanted_stream, whole_input, wrong_input};
use embulgri_tests::crop::Whole;
use embulgri_tests::feeding::LAST;
use embulgri_tests::head;
use embulgri_tests::judging::{judge, Fault};
use embulgri_tests::ogg::{self, NO_ROOM};
use embulgri_tests::opus;
use embulgri_tests::random::Random;
use embulgri_tests::tags_inputs::in_case;

const STREAMS: usize = 2_000;

/// The findings of positions and packets, with no reader: by the sums of the packets that complete on each
/// page.
fn by_sums(whole: &Whole) -> Vec<Finding> {
    let (mut joining, mut streams) = (Joining::default(), 0);
    let (mut findings, mut position) = (Vec::new(), None);
    for (page, fed) in (0..).zip(&whole.pages) {
        let packets = joining.add(&fed.page);
        if page == 0 {
            let head = head::read(&packets[0].bytes).expect("a right header");
            streams = head.streams;
        }
        if page < whole.headers as u64 || packets.is_empty() {
            continue;
        }
        let read = |bytes: &[u8]| opus::read(bytes, streams).expect("a legal packet");
        let lengths = packets.iter().map(|packet| read(&packet.bytes).samples);
        let (sum, last) = lengths.fold((0, 0), |(sum, _), length| (sum + length, length));
        let granule = fed.page.granule;
        let end = position.unwrap_or(granule.saturating_sub(sum)) + sum;
        let is_marked = fed.page.flags & LAST != 0;
        if is_marked && end.saturating_sub(granule) > last {
            let kind = LONG_TRIM;
            findings.push(Finding { page, kind });
        }
        if granule > end {
            findings.push(Finding { page, kind: HOLE });
        }
        position = Some(granule);
    }
    if joining.unfinished.is_some() {
        let (page, kind) = (whole.pages.len() as u64 - 1, UNFINISHED);
        findings.push(Finding { page, kind });
    }
    findings.sort();
    findings
}

#[test]
fn holes_trims_and_unfinished_packets_are_those_by_sums() {
    let mut random = Random::of_run(195);
    for _ in 0..STREAMS {
        let input = whole_input(&mut random);
        let whole = Whole::of(&input.bytes).expect("a whole stream");
        let mut told = findings(&whole);
        assert!(told.windows(2).all(|two| two[0] < two[1]), "{}", input.name);
        told.retain(|finding| ![NO_END, REPLAY_GAIN].contains(&finding.kind));
        assert_eq!(told, by_sums(&whole), "{}", input.name);
    }
}

/// The kinds of a stream that was made for them.
fn wanted_kinds(wanted: Option<Wanted>, is_tagged: bool) -> Vec<u64> {
    let is = |test: fn(Wanted) -> bool| wanted.is_some_and(test);
    let kinds = [
        (UNFINISHED, is(|w| w.is_unfinished)),
        (NO_END, wanted.is_none_or(|w| w.end == End::Unmarked)),
        (LONG_TRIM, is(|w| w.end == End::LongTrim)),
        (REPLAY_GAIN, is_tagged),
        (HOLE, is(|w| w.has_holes)),
    ];
    let wanted = kinds.into_iter().filter(|(_, is)| *is);
    wanted.map(|(kind, _)| kind).collect()
}

#[test]
fn streams_have_the_findings_that_they_are_made_for() {
    let mut random = Random::of_run(196);
    let mut sets = Vec::new();
    for number in 0..STREAMS {
        let wanted = Wanted::any(&mut random);
        let wanted = Some(wanted).filter(|_| number % 8 != 0);
        let is_tagged = random.one_in(2);
        let input = wanted_stream(&mut random, wanted, is_tagged);
        let told = check(&input.bytes).expect("a whole stream");
        let kinds = kinds_of(&told);
        assert_eq!(kinds, wanted_kinds(wanted, is_tagged), "{}", input.name);
        sets.push(kinds);
    }
    assert!(kind_sets().iter().all(|set| sets.contains(set)));
    assert_eq!(kind_sets().len(), 24);
}

#[test]
fn a_mark_on_the_last_page_takes_away_one_finding() {
    let mut random = Random::of_run(197);
    let mut marked = 0;
    for _ in 0..STREAMS {
        let wanted = Wanted {
            end: End::Unmarked,
            ..Wanted::any(&mut random)
        };
        let bytes = wanted_stream(&mut random, Some(wanted), true).bytes;
        let whole = Whole::of(&bytes).expect("a whole stream");
        let mut pages: Vec<_> = whole.pages.iter().map(|fed| fed.page.clone()).collect();
        pages.last_mut().expect("a page").flags |= LAST;
        let bytes: Vec<u8> = pages.iter().flat_map(ogg::encode).collect();
        let Ok(told) = check(&bytes) else {
            continue;
        };
        let mut expected = findings(&whole);
        expected.retain(|finding| finding.kind != NO_END);
        assert_eq!(told, expected);
        marked += 1;
    }
    assert!(marked >= STREAMS / 2);
}

#[test]
fn a_name_counts_in_any_case_and_before_the_first_equals_sign_alone() {
    let mut random = Random::of_run(198);
    for name in NAMES {
        for _ in 0..100 {
            let cased = in_case(name, random.number());
            let tag = [&cased[..], b"=x=y"].concat();
            assert_eq!(replay_gain_name(&tag), Some(name));
            assert_eq!(replay_gain_name(&cased), None);
            for place in 0..=cased.len() {
                assert_eq!(replay_gain_name(&tag[..place]), None);
                let mut other = tag.clone();
                other.insert(place, *random.pick(b" _=X"));
                let is_kept = place == cased.len() && other[place] == b'=';
                assert_eq!(replay_gain_name(&other).is_some(), is_kept);
            }
        }
    }
}

#[test]
fn the_shorter_list_decides() {
    let mut random = Random::of_run(199);
    for _ in 0..STREAMS {
        let told = check(&whole_input(&mut random).bytes);
        let findings = told.as_deref().expect("a whole stream");
        let n = findings.len();
        assert_eq!(stored(&told, [n, n]), Ok(findings));
        assert_eq!(stored(&told, [n, n + 3]), Ok(findings));
        if n > 0 {
            for rooms in [[n - 1, n], [n, n - 1], [0, n + 3], [n + 3, 0]] {
                assert_eq!(stored(&told, rooms), Err(NO_ROOM));
            }
        }
    }
}

#[test]
fn a_stream_that_is_not_whole_has_its_own_number() {
    let mut random = Random::of_run(200);
    for _ in 0..STREAMS {
        let bytes = wrong_input(&mut random).bytes;
        if let Err(number) = judge(&bytes).map_err(Fault::number) {
            assert_eq!(check(&bytes), Err(number));
            assert_eq!(stored(&check(&bytes), [0, 0]), Err(number));
        }
    }
}
