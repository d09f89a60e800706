//! Feeding calls of the library that watch all that they are lent, and what the rules say that they
//! leave.

use crate::buffer_pages::{self, Fed};
use crate::counted::Counted;
use crate::feeding::{self, Lent, LIST, LISTS};
use crate::ffi;
use crate::head::Head;
use crate::ogg;
use crate::reader::{totals_in, Reader, Totals, NUMBERS};
use crate::reading::Reading;
use crate::stamps::Listing;
use crate::tags::LONGEST;
use crate::writing::{assert_same_bytes, old_bytes, BEFORE, BEHIND};
use std::fmt::Display;

/// The most places that a call is lent of the carry buffer and of each list: to feed a page, and to
/// feed the pages of a buffer.
pub const MOST_CARRY: usize = LONGEST + 320;
pub const MOST_LIST: usize = 2 * LIST;
pub const MOST_OF_PAGES: usize = 1_024;

/// How much a call is lent: of the carry buffer, and of each list.
#[derive(Clone, Copy, Debug, PartialEq, Eq)]
pub struct Room {
    pub carry: usize,
    pub lists: [usize; LISTS],
}

/// The least that is asked.
pub const ENOUGH: Room = Room {
    carry: LONGEST,
    lists: [LIST; LISTS],
};

/// The numbers of a reader and the memory lent, each with places around it that stay.
#[derive(Clone)]
struct Memory {
    state: [u64; NUMBERS + 2],
    carry: Vec<u8>,
    lists: [Vec<u64>; LISTS],
}

impl Memory {
    fn new() -> Memory {
        let list = |mark: u64| (mark..).map(|place| 0xa5a5_0000_5a5a_0000 + place);
        let marks = [0x1000, 0x2000, 0x3000, 0x4000];
        Memory {
            state: [0xa5a5_5a5a; NUMBERS + 2],
            carry: old_bytes(BEFORE + MOST_CARRY + BEHIND),
            lists: marks.map(|mark| list(mark).take(MOST_OF_PAGES + 2).collect()),
        }
    }

    fn numbers(&self) -> &[u64; NUMBERS] {
        self.state[1..].first_chunk().expect("sixteen places")
    }

    fn numbers_mut(&mut self) -> &mut [u64; NUMBERS] {
        self.state[1..].first_chunk_mut().expect("sixteen places")
    }

    /// The reader's numbers, and what is lent.
    fn lend(&mut self, room: Room) -> (&mut [u64; NUMBERS], Lent<'_>) {
        let mut rooms = room.lists.into_iter();
        let lent = Lent {
            carry: &mut self.carry[BEFORE..][..room.carry],
            lists: self.lists.each_mut().map(|list| {
                let room = rooms.next().expect("a room for each list");
                &mut list[1..][..room]
            }),
        };
        let numbers = self.state[1..].first_chunk_mut().expect("sixteen places");
        (numbers, lent)
    }
}

/// A reader of the library, and one by the rules. If it was started or opened, what it accepted is
/// also counted with no reader, and the totals are held to that after every call.
#[derive(Clone)]
pub struct Feeder {
    library: Memory,
    rules: Memory,
    stream: Option<Counted>,
}

impl Feeder {
    /// Readers of these numbers.
    pub fn of(numbers: [u64; NUMBERS]) -> Feeder {
        let mut memory = Memory::new();
        *memory.numbers_mut() = numbers;
        Feeder {
            library: memory.clone(),
            rules: memory,
            stream: None,
        }
    }

    /// Readers just started.
    pub fn started() -> Feeder {
        let mut feeder = Feeder::of([0xa5a5_5a5a; NUMBERS]);
        feeder.start();
        feeder
    }

    /// Starts both readers again on the memory as it is.
    pub fn start(&mut self) {
        ffi::start(self.library.numbers_mut());
        *self.rules.numbers_mut() = Reader::started().numbers();
        self.stream = Some(Counted::started());
        self.check_state("started");
    }

    /// Opens both readers part way on the memory as it is, and gives the answer.
    pub fn open(&mut self, head: &Head, case: impl Display) -> u32 {
        let told = Reader::opened(head);
        let answer = ffi::open(head, self.library.numbers_mut());
        if let Ok(reader) = &told {
            *self.rules.numbers_mut() = reader.numbers();
            self.stream = Some(Counted::opened(head));
        }
        assert_eq!(answer, told.err().unwrap_or(0), "opened, {case}");
        self.check_state(case);
        answer
    }

    /// Sets the numbers of both readers.
    pub fn set(&mut self, numbers: [u64; NUMBERS]) {
        *self.library.numbers_mut() = numbers;
        *self.rules.numbers_mut() = numbers;
        self.stream = None;
    }

    pub fn numbers(&self) -> [u64; NUMBERS] {
        *self.rules.numbers()
    }

    pub fn reader(&self) -> Reader {
        Reader::from_numbers(self.rules.numbers())
    }

    /// The totals of the library's reader.
    pub fn totals(&self) -> Totals {
        totals_in(self.library.numbers())
    }

    /// What the carry buffer holds.
    pub fn carry(&self) -> &[u8] {
        &self.library.carry[BEFORE..][..MOST_CARRY]
    }

    /// What so many first places of the lists hold: end stamps, lengths, kept counts and frames.
    pub fn listed(&self, count: usize) -> [&[u64]; LISTS] {
        self.library
            .lists
            .each_ref()
            .map(|list| &list[1..][..count])
    }

    /// Changes bytes of both carry buffers from a place on.
    pub fn put_in_carry(&mut self, place: usize, bytes: &[u8]) {
        for memory in [&mut self.library, &mut self.rules] {
            memory.carry[BEFORE + place..][..bytes.len()].copy_from_slice(bytes);
        }
        if let Some(stream) = &mut self.stream {
            stream.put(place, bytes);
        }
    }

    /// What the rules tell of a page, both readers staying as they are.
    pub fn foretold(&self, page: &[u8], room: Room) -> Result<Listing, u32> {
        let mut memory = self.rules.clone();
        let (numbers, mut lent) = memory.lend(room);
        feeding::feed(&mut Reader::from_numbers(numbers), page, &mut lent)
    }

    /// Feeds a page to both readers, holds the library to the rules and gives what they tell.
    pub fn feed(&mut self, page: &[u8], room: Room, case: impl Display) -> Result<Listing, u32> {
        let (state, lent) = self.library.lend(room);
        let found = Reading::by_library(|out| ffi::feed(state, page, lent, out));
        let (numbers, mut lent) = self.rules.lend(room);
        let mut reader = Reader::from_numbers(numbers);
        let told = feeding::feed(&mut reader, page, &mut lent);
        if told.is_ok() {
            *numbers = reader.numbers();
            if let Some(stream) = &mut self.stream {
                stream.accept(&ogg::read(page).expect("a page"));
            }
        }
        let record = told
            .as_ref()
            .map(Listing::numbers)
            .map_err(|&number| number);
        assert_eq!(found, Reading::by_rules(record), "page's record, {case}");
        self.check_all(case);
        told
    }

    /// Feeds the pages of a buffer to both readers, holds the library to the rules and gives what they
    /// tell.
    pub fn feed_pages(&mut self, bytes: &[u8], room: Room, case: impl Display) -> Fed {
        let (state, lent) = self.library.lend(room);
        let found = Reading::by_library(|out| ffi::feed_pages(state, bytes, lent, out));
        let (numbers, mut lent) = self.rules.lend(room);
        let told = buffer_pages::feed(numbers, bytes, &mut lent);
        if let Some(stream) = &mut self.stream {
            for page in told.accepted(bytes) {
                stream.accept(&ogg::read(page).expect("a page"));
            }
        }
        let expected = Reading::stored(told.answer(), told.numbers());
        assert_eq!(found, expected, "record of the pages, {case}");
        self.check_all(case);
        told
    }

    fn check_all(&self, case: impl Display) {
        self.check_state(&case);
        assert_same_bytes(&self.library.carry, &self.rules.carry, &case);
        assert!(self.library.lists == self.rules.lists, "lists, {case}");
    }

    fn check_state(&self, case: impl Display) {
        assert_eq!(self.library.state, self.rules.state, "state, {case}");
        if let Some(stream) = &self.stream {
            stream.check(self.totals(), case);
        }
    }
}
