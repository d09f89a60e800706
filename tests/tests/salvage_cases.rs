//! The worked examples of salvage (crates/salvage_rules/specs/Examples.antt), each after two good header
//! pages, and more of them worked out by hand.

use embulgri_tests::feeding::{FIRST, LAST, NO_GRANULE};
use embulgri_tests::judging::HEADERS_INCOMPLETE;
use embulgri_tests::ogg::{self, Page, HEAD};
use embulgri_tests::salvage::{salvage, Line, Rooms, Saved, COLUMNS, CUT, MARK, NUMBER, SKIP};
use embulgri_tests::salvage_calls::check_salvage;
use embulgri_tests::salvage_pages::{headers, Plain, PLAIN_HEADERS};

/// A line of the page of this place in the list, of which the headers are 0 and 1.
type LineOf = (u64, usize, u64);

fn number(page: usize) -> LineOf {
    (NUMBER, page, 4)
}

fn mark(page: usize) -> LineOf {
    (MARK, page, 1)
}

fn cut(page: usize, bytes: u64) -> LineOf {
    (CUT, page, bytes)
}

fn skip(page: usize, bytes: u64) -> LineOf {
    (SKIP, page, bytes)
}

fn p(number: u32, lacing: &[u8]) -> Plain {
    Plain::new(number, lacing)
}

fn c(number: u32, lacing: &[u8]) -> Plain {
    Plain::continued(number, lacing)
}

/// The bytes of pages, and the places where they start.
fn laid(pages: &[Page]) -> (Vec<u8>, Vec<usize>) {
    let (mut bytes, mut places) = (Vec::new(), Vec::new());
    for page in pages {
        places.push(bytes.len());
        bytes.extend(ogg::encode(page));
    }
    (bytes, places)
}

/// Salvages by the rules and by the library, with more room than is needed.
fn salvaged(bytes: &[u8]) -> Result<Saved, u32> {
    let told = salvage(bytes);
    let rooms = Rooms {
        work: bytes.len() / HEAD + 1,
        output: bytes.len() + 1,
        columns: [bytes.len() / 7 + 2; COLUMNS],
    };
    check_salvage(bytes, &told, &rooms, "by hand");
    told
}

/// What is saved of pages, as plain pages, and the lines.
fn outcome(pages: &[Page]) -> (Vec<Plain>, Vec<Line>) {
    let saved = salvaged(&laid(pages).0).expect("whole headers");
    let plain = saved.kept.iter().map(|(_, tidied)| Plain::of(&tidied.page));
    (plain.skip(PLAIN_HEADERS).collect(), saved.lines)
}

/// Holds what is saved of plain pages after two headers to what is settled and to these lines.
fn holds(given: &[Plain], settled: &[Plain], lines: &[LineOf]) {
    let mut pages = headers().to_vec();
    pages.extend(given.iter().map(Plain::page));
    let places = laid(&pages).1;
    let of_place = |&(what, page, bytes): &LineOf| [what, places[page] as u64, bytes];
    let lines = lines.iter().map(of_place).collect();
    assert_eq!(outcome(&pages), (settled.to_vec(), lines), "{given:?}");
}

#[test]
fn a_packet_that_a_break_cuts_is_removed_on_all_its_pages() {
    holds(
        &[p(2, &[3, 255]), c(4, &[4, 9])],
        &[p(2, &[3]), p(3, &[9])],
        &[cut(2, 255), number(3), mark(3), cut(3, 4)],
    );
    holds(
        &[p(2, &[3]), c(4, &[0, 9])],
        &[p(2, &[3]), p(3, &[9])],
        &[number(3), mark(3), cut(3, 0)],
    );
    holds(
        &[p(2, &[3]), c(4, &[255]), c(5, &[4, 9])],
        &[p(2, &[3]), p(3, &[]), p(4, &[9])],
        &[
            number(3),
            mark(3),
            cut(3, 255),
            number(4),
            mark(4),
            cut(4, 4),
        ],
    );
}

#[test]
fn a_page_left_with_nothing_stays_unless_it_has_a_granule_position() {
    holds(
        &[p(2, &[3, 255]), c(3, &[255]), p(5, &[9])],
        &[p(2, &[3]), p(3, &[]), p(4, &[9])],
        &[cut(2, 255), mark(3), cut(3, 255), number(4)],
    );
    holds(
        &[p(2, &[3, 255]), c(4, &[4]), p(5, &[9])],
        &[p(2, &[3]), p(3, &[9])],
        &[cut(2, 255), skip(3, 32), number(4)],
    );
}

#[test]
fn one_cut_packet_goes_over_four_pages() {
    holds(
        &[
            p(2, &[3]),
            c(4, &[]),
            c(5, &[]),
            c(6, &[255]),
            c(7, &[]),
            p(9, &[3]),
        ],
        &[
            p(2, &[3]),
            p(3, &[]),
            p(4, &[]),
            p(5, &[]),
            p(6, &[]),
            p(7, &[3]),
        ],
        &[
            number(3),
            mark(3),
            number(4),
            mark(4),
            number(5),
            mark(5),
            cut(5, 255),
            number(6),
            mark(6),
            number(7),
        ],
    );
}

#[test]
fn a_missing_page_heals_a_break_or_opens_one() {
    holds(
        &[p(2, &[3, 255]), p(2, &[3, 255]), c(3, &[4, 9])],
        &[p(2, &[3, 255]), c(3, &[4, 9])],
        &[skip(3, 287)],
    );
    holds(
        &[p(2, &[3, 255]), p(3, &[4]), p(4, &[9])],
        &[p(2, &[3]), p(3, &[9])],
        &[cut(2, 255), skip(3, 32), number(4)],
    );
    holds(
        &[p(2, &[3]), c(3, &[255]), p(5, &[9])],
        &[p(2, &[3]), p(3, &[]), p(4, &[9])],
        &[mark(3), cut(3, 255), number(4)],
    );
}

#[test]
fn the_very_end_cuts_nothing() {
    holds(&[p(2, &[3, 255])], &[p(2, &[3, 255])], &[]);
    holds(&[], &[], &[]);
}

#[test]
fn a_kept_page_can_be_refused_later() {
    let long = c(3, &[4, 9]).with_full(241);
    holds(
        &[p(2, &[3, 255]), long, p(20, &[3]).odd(), c(4, &[5, 6])],
        &[p(2, &[3]), p(3, &[6])],
        &[cut(2, 255), skip(3, 61_769), number(5), mark(5), cut(5, 5)],
    );
}

#[test]
fn a_missing_page_is_not_tried_again() {
    let long = c(3, &[]).with_full(241);
    holds(
        &[p(2, &[3, 255]), long, c(4, &[5, 6]).odd(), p(20, &[6])],
        &[p(2, &[3]), p(3, &[6])],
        &[cut(2, 255), skip(3, 61_763), number(5)],
    );
}

#[test]
fn pages_after_an_end_mark_are_missing() {
    let mut end = p(3, &[9]);
    end.flags = LAST;
    holds(
        &[p(2, &[3]), end.clone(), p(4, &[9]), p(5, &[])],
        &[p(2, &[3]), end],
        &[skip(4, 37 + 27)],
    );
}

#[test]
fn numbers_follow_each_other_modulo_two_to_the_32() {
    let mut pages = headers().to_vec();
    pages.extend([p(2, &[3, 255]), c(3, &[4])].iter().map(Plain::page));
    for page in &mut pages {
        page.sequence = page.sequence.wrapping_sub(3);
    }
    let places = laid(&pages).1;
    let lines = places.iter().map(|&place| [NUMBER, place as u64, 4]);
    let settled = vec![p(2, &[3, 255]), c(3, &[4])];
    assert_eq!(outcome(&pages), (settled, lines.collect()));
}

/// Bytes before, between and after the pages are one line each, and a page inside a foreign one is not
/// looked at.
#[test]
fn what_is_in_no_kept_page_is_skipped() {
    let [first, second] = headers().map(|page| ogg::encode(&page));
    let inner = ogg::encode(&p(2, &[3]).page());
    let foreign = Page {
        flags: 0,
        granule: NO_GRANULE,
        serial: 8,
        sequence: 0,
        lacing: vec![inner.len() as u8],
        body: inner,
    };
    let foreign = ogg::encode(&foreign);
    let bytes = [b"xOggS", &first[..], &foreign, b"y", &second, b"OggS"].concat();
    let saved = salvaged(&bytes).expect("whole headers");
    assert_eq!(saved.bytes, [&first[..], &second].concat());
    let after_first = 5 + first.len() as u64;
    let between = foreign.len() as u64 + 1;
    let end = after_first + between + second.len() as u64;
    let lines = [[SKIP, 0, 5], [SKIP, after_first, between], [SKIP, end, 4]];
    assert_eq!(saved.lines, lines);
}

#[test]
fn the_serial_is_that_of_the_first_page_with_a_first_mark() {
    let mut pages = headers().to_vec();
    let mut foreign = p(0, &[3]).page();
    (foreign.serial, foreign.flags) = (9, FIRST | 8);
    pages.insert(0, foreign);
    assert_eq!(salvaged(&laid(&pages).0), Err(HEADERS_INCOMPLETE));
    pages.rotate_left(1);
    let saved = salvaged(&laid(&pages).0).expect("whole headers");
    assert_eq!(saved.kept.len(), PLAIN_HEADERS);
}

/// The piece after a header's packet goes where a break follows, and else makes the page missing (10).
#[test]
fn a_header_page_with_a_piece_after_its_packet_needs_a_break() {
    let [first, mut second] = headers();
    let after = p(3, &[3]).page();
    second.lacing.push(255);
    second.body.extend([0; 255]);
    let pages = [first, second, after];
    let (bytes, places) = laid(&pages);
    let saved = salvaged(&bytes).expect("whole headers");
    let [second, third] = [places[1], places[2]].map(|place| place as u64);
    assert_eq!(saved.lines, [[CUT, second, 255], [NUMBER, third, 4]]);
    let mut pages = pages;
    pages[2].sequence = 2;
    assert_eq!(salvaged(&laid(&pages).0), Err(HEADERS_INCOMPLETE));
}
