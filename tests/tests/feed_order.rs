//! Holds the order of feeding's checks: whatever faults a page has, the first in the order decides.

use embulgri_tests::feed_calls::{Feeder, Room, ENOUGH};
use embulgri_tests::feeding::{CONTINUED, FIRST, LAST, NO_GRANULE};
use embulgri_tests::head;
use embulgri_tests::head_inputs::{with_table, without_table};
use embulgri_tests::ogg::{self, Page, CHECKSUM};
use embulgri_tests::pieces::put_pieces;
use embulgri_tests::random::Random;
use embulgri_tests::reader::{Position, Reader};

/// The place of the phase in a reader's numbers, and a phase that is over.
const PHASE: usize = 0;
const OVER: u64 = 4;

/// A page in the making, and the call that it is for.
#[derive(Clone)]
struct Draft {
    pieces: Vec<(Vec<u8>, bool)>,
    page: Page,
    room: Room,
    ended: bool,
    damage: fn(&mut Vec<u8>),
}

impl Draft {
    fn new(flags: u64, granule: u64, sequence: u32, pieces: &[&[u8]]) -> Draft {
        Draft {
            pieces: pieces.iter().map(|piece| (piece.to_vec(), true)).collect(),
            page: Page {
                flags,
                granule,
                serial: 7,
                sequence,
                lacing: Vec::new(),
                body: Vec::new(),
            },
            room: ENOUGH,
            ended: false,
            damage: |_| (),
        }
    }

    fn bytes(&self) -> Vec<u8> {
        let mut page = self.page.clone();
        put_pieces(&mut page, &self.pieces);
        let mut bytes = ogg::encode(&page);
        (self.damage)(&mut bytes);
        bytes
    }
}

/// A number and what makes a page wrong by it. Two of them on one page leave each other as they are,
/// or the one that comes later in a list and earlier in the order hides the other.
type Fault = (u32, fn(&mut Draft));

const ON_ANY: [Fault; 9] = [
    (1, |draft| draft.room.lists[1] = 254),
    (1, |draft| draft.room.lists[3] = 254),
    (2, |draft| draft.ended = true),
    (4, |draft| draft.damage = |bytes| bytes[CHECKSUM.start] ^= 1),
    (3, |draft| draft.damage = |bytes| bytes.push(0)),
    (6, |draft| draft.page.sequence += 1),
    (7, |draft| draft.page.flags |= 8),
    (8, |draft| draft.page.flags ^= CONTINUED),
    (9, |draft| draft.pieces.push((vec![0; 61_441], true))),
];
const ON_LATER: [Fault; 1] = [(5, |draft| draft.page.serial ^= 1)];
const ON_HEADERS: [Fault; 2] = [
    (10, |draft| draft.pieces.push((Vec::new(), true))),
    (11, |draft| draft.page.granule = 1),
];
const ON_FIRST: [Fault; 2] = [
    (13, |draft| draft.pieces[0].0[head::CHANNELS] = 3),
    (12, |draft| draft.pieces[0].0[0] ^= 1),
];
const ON_COMMENT: [Fault; 1] = [(14, |draft| draft.pieces[0].0[0] = 0xff)];
const ON_AUDIO: [Fault; 3] = [
    (15, |draft| draft.pieces[1].0 = vec![0x03, 0x00]),
    (16, |draft| draft.pieces[2].0 = vec![0x08, 0x00, 0x00]),
    (11, |draft| draft.page.granule = NO_GRANULE),
];

/// Makes a page wrong in each choice of up to three faults, and holds the answer to the first in the
/// order.
fn check_all(feeder: &Feeder, right: &Draft, faults: &[Fault]) {
    let told = feeder.clone().feed(&right.bytes(), right.room, "no fault");
    assert!(told.is_ok());
    let choices = 1..1_u32 << faults.len();
    for choice in choices.filter(|choice| choice.count_ones() <= 3) {
        let chosen = |&(place, _): &(usize, &Fault)| choice >> place & 1 == 1;
        let mut draft = right.clone();
        let mut first = u32::MAX;
        for (_, (number, apply)) in faults.iter().enumerate().filter(chosen) {
            apply(&mut draft);
            first = first.min(*number);
        }
        let mut feeder = feeder.clone();
        if draft.ended {
            let mut numbers = feeder.numbers();
            numbers[PHASE] = OVER;
            feeder.set(numbers);
        }
        let case = format!("faults {choice:b}");
        let told = feeder.feed(&draft.bytes(), draft.room, &case);
        assert_eq!(told.err(), Some(first), "{case}");
    }
}

/// Feeds right pages to a reader.
fn fed(mut feeder: Feeder, pages: &[Draft]) -> Feeder {
    for draft in pages {
        let told = feeder.feed(&draft.bytes(), draft.room, "a right page");
        assert!(told.is_ok());
    }
    feeder
}

/// An identification header of so many streams, with pre-skip 312.
fn head_of(streams: usize) -> head::Head {
    let mut random = Random::of_run(92);
    let mut head = match streams {
        1 => without_table(&mut random, 2),
        _ => with_table(&mut random, 255, 2, (streams, 0)),
    };
    head.pre_skip = 312;
    head
}

fn first_page(streams: usize) -> Draft {
    Draft::new(FIRST, 0, 0, &[&head::encode(&head_of(streams))])
}

/// Two pages of comments, the first of 255 bytes of the vendor and what precedes them.
fn comment_pages() -> [Draft; 2] {
    let mut comments = b"OpusTags\x05\x01\0\0".to_vec();
    comments.resize(12 + 261, b'v');
    comments.extend([0; 4]);
    let (start, end) = comments.split_at(255);
    let mut first = Draft::new(0, NO_GRANULE, 1, &[start]);
    first.pieces[0].1 = false;
    [first, Draft::new(CONTINUED, 0, 2, &[end])]
}

/// A reader of two streams that holds 255 bytes of an audio packet, and a page that ends it and has
/// two packets of 960 samples more. `last` is the mark or 0.
fn audio(last: u64, opened: bool) -> (Feeder, Draft) {
    let mut held = vec![0x08; 255];
    held[..4].copy_from_slice(&[0x08, 0x01, 0xaa, 0x08]);
    let mut start = Draft::new(0, NO_GRANULE, 3, &[&held]);
    start.pieces[0].1 = false;
    let packet: &[u8] = &[0x08, 0x00, 0x08];
    let next = Draft::new(CONTINUED | last, 2_880, 4, &[&[0x55], packet, packet]);
    let feeder = match opened {
        true => {
            let opened = Reader::opened(&head_of(2)).expect("a right header");
            fed(Feeder::of(opened.numbers()), &[start])
        }
        false => {
            let [one, other] = comment_pages();
            fed(Feeder::started(), &[first_page(2), one, other, start])
        }
    };
    (feeder, next)
}

/// The reader with a position to count from.
fn at(feeder: &Feeder, granule: u64) -> Feeder {
    let mut reader = feeder.reader();
    reader.position = Position::At(granule);
    let mut feeder = feeder.clone();
    feeder.set(reader.numbers());
    feeder
}

#[test]
fn faults_of_the_first_page_are_told_in_their_order() {
    let faults = [&ON_ANY[..], &ON_HEADERS, &ON_FIRST].concat();
    check_all(&Feeder::started(), &first_page(1), &faults);
}

#[test]
fn faults_of_a_comment_page_are_told_in_their_order() {
    let [first, second] = comment_pages();
    let feeder = fed(Feeder::started(), &[first_page(1), first]);
    let faults = [&ON_ANY[..], &ON_LATER, &ON_HEADERS, &ON_COMMENT].concat();
    check_all(&feeder, &second, &faults);
}

#[test]
fn faults_of_an_audio_page_are_told_in_their_order() {
    let (feeder, page) = audio(0, false);
    let small: Fault = (17, |draft| draft.page.granule = 2_879);
    let faults = [&[small][..], &ON_ANY, &ON_LATER, &ON_AUDIO].concat();
    check_all(&feeder, &page, &faults);
    check_all(&at(&feeder, 0), &page, &faults);
}

#[test]
fn faults_of_an_early_last_page_are_told_in_their_order() {
    let (feeder, page) = audio(LAST, false);
    let small: Fault = (18, |draft| draft.page.granule = 311);
    let faults = [&[small][..], &ON_ANY, &ON_LATER, &ON_AUDIO].concat();
    check_all(&feeder, &page, &faults);
}

#[test]
fn faults_of_a_last_page_with_nothing_to_stand_on_are_told_in_their_order() {
    let (feeder, page) = audio(0, true);
    let end: Fault = (19, |draft| draft.page.flags |= LAST);
    let faults = [&[end][..], &ON_ANY, &ON_LATER, &ON_AUDIO].concat();
    check_all(&feeder, &page, &faults);
}

#[test]
fn of_two_wrong_packets_the_first_decides() {
    let (feeder, right) = audio(0, false);
    let (illegal, mixed) = (vec![0x03, 0x00], vec![0x08, 0x00, 0x00]);
    for (one, other, number) in [
        (&illegal, &mixed, 15),
        (&mixed, &illegal, 16),
        (&Vec::new(), &mixed, 15),
        (&mixed, &Vec::new(), 16),
    ] {
        let mut draft = right.clone();
        draft.pieces[1].0.clone_from(one);
        draft.pieces[2].0.clone_from(other);
        let told = feeder.clone().feed(&draft.bytes(), draft.room, number);
        assert_eq!(told.err(), Some(number));
    }
}
