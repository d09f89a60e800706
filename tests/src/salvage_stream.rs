//! A stream while it is damaged: its pages, and bytes that are no pages any more.

use crate::feeding::NO_GRANULE;
use crate::ogg::{self, Page};
use crate::random::Random;

/// What a damaged stream is made of.
#[derive(Clone)]
pub enum Part {
    Page(Page),
    Bytes(Vec<u8>),
}

pub struct Stream {
    pub parts: Vec<Part>,
    /// How many pages the headers had.
    pub headers: usize,
}

impl Stream {
    pub fn of(pages: impl IntoIterator<Item = Page>, headers: usize) -> Stream {
        Stream {
            parts: pages.into_iter().map(Part::Page).collect(),
            headers,
        }
    }

    /// A place before a part, or the end.
    pub fn place(&self, random: &mut Random) -> usize {
        random.below(self.parts.len() + 1)
    }

    /// The place of a page from a place on, if one is left there.
    pub fn page(&self, random: &mut Random, from: usize) -> Option<usize> {
        let is_page = |place: &usize| matches!(self.parts[*place], Part::Page(_));
        let places: Vec<usize> = (from..self.parts.len()).filter(is_page).collect();
        (!places.is_empty()).then(|| *random.pick(&places))
    }

    /// The place of a page of the headers, if it is left there.
    pub fn header(&self, random: &mut Random) -> Option<usize> {
        let place = random.below(self.headers);
        matches!(self.parts.get(place), Some(Part::Page(_))).then_some(place)
    }

    /// The page at a place, or one of no lacing values where there are bytes.
    pub fn page_at(&self, place: usize) -> Page {
        match self.parts.get(place) {
            Some(Part::Page(page)) => page.clone(),
            _ => Page {
                flags: 0,
                granule: NO_GRANULE,
                serial: 0,
                sequence: 0,
                lacing: Vec::new(),
                body: Vec::new(),
            },
        }
    }

    /// Changes a page from a place on.
    pub fn change(&mut self, random: &mut Random, from: usize, apply: fn(&mut Random, &mut Page)) {
        let place = self.page(random, from);
        self.change_at(random, place, apply);
    }

    pub fn change_at(
        &mut self,
        random: &mut Random,
        place: Option<usize>,
        apply: fn(&mut Random, &mut Page),
    ) {
        if let Some(Part::Page(page)) = place.and_then(|place| self.parts.get_mut(place)) {
            apply(random, page);
        }
    }

    /// Changes the bytes of a page after the first, its checksum staying.
    pub fn spoil(&mut self, random: &mut Random, apply: fn(&mut Random, &mut Vec<u8>)) {
        if let Some(place) = self.page(random, 1) {
            let mut bytes = ogg::encode(&self.page_at(place));
            apply(random, &mut bytes);
            self.parts[place] = Part::Bytes(bytes);
        }
    }

    pub fn insert(&mut self, place: usize, page: Page) {
        self.parts.insert(place, Part::Page(page));
    }

    pub fn insert_bytes(&mut self, place: usize, bytes: Vec<u8>) {
        self.parts.insert(place, Part::Bytes(bytes));
    }

    /// Raises the numbers of the pages from a place on.
    pub fn raise(&mut self, from: usize, more: u32) {
        for part in self.parts.iter_mut().skip(from) {
            if let Part::Page(page) = part {
                page.sequence = page.sequence.wrapping_add(more);
            }
        }
    }

    pub fn bytes(&self) -> Vec<u8> {
        let bytes = |part: &Part| match part {
            Part::Page(page) => ogg::encode(page),
            Part::Bytes(bytes) => bytes.clone(),
        };
        self.parts.iter().flat_map(bytes).collect()
    }
}
