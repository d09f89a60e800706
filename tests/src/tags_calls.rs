//! Calls of the library on comment headers that watch all that lies around their outputs, held to
//! what the rules say that they leave.

use crate::ffi;
use crate::reading::Reading;
use crate::tags::{self, Layout, Tags};
use std::fmt::Display;
use std::ops::Range;

/// A packet, and what the rules tell of it.
pub struct Packet<'a> {
    bytes: &'a [u8],
    told: Result<Layout, u32>,
}

impl<'a> Packet<'a> {
    /// Reads the number of comments and the vendor by the library and holds both to the rules.
    pub fn checked(bytes: &'a [u8], case: impl Display) -> Packet<'a> {
        let told = tags::read(bytes);
        let packet = Packet { bytes, told };
        let count = Reading::by_library(|[count]: &mut [u64; 1]| ffi::tags_read(bytes, count));
        let expected = packet.rules(|layout| Ok([layout.comments.len() as u64]));
        assert_eq!(count, expected, "count, {}, {case}", packet.shown());
        let vendor = Reading::by_library(|part| ffi::tags_vendor(bytes, part));
        let expected = packet.rules(|layout| Ok(part(&layout.vendor)));
        assert_eq!(vendor, expected, "vendor, {}, {case}", packet.shown());
        packet
    }

    /// The answer to reading it.
    pub fn answer(&self) -> u32 {
        self.told.as_ref().err().copied().unwrap_or(0)
    }

    /// The number of comments, 0 under a refusal.
    pub fn count(&self) -> u64 {
        self.told.as_ref().map_or(0, |l| l.comments.len() as u64)
    }

    /// Asks the library for the place of a comment, holds it to the rules and gives the answer.
    pub fn comment(&self, number: u64, case: impl Display) -> u32 {
        let found = Reading::by_library(|part| ffi::tags_comment(self.bytes, number, part));
        let expected = self.rules(|layout| layout.comment(number).map(|place| part(&place)));
        assert_eq!(
            found,
            expected,
            "comment {number}, {}, {case}",
            self.shown()
        );
        found.answer
    }

    /// Asks the library for the gain of a comment, holds it to the rules and gives the answer.
    pub fn gain(&self, number: u64, case: impl Display) -> u32 {
        let found =
            Reading::by_library(|[gain]: &mut [u64; 1]| ffi::tags_gain(self.bytes, number, gain));
        let expected = self.rules(|layout| {
            let gain = layout.gain(self.bytes, number)?;
            Ok([gain.cast_unsigned().into()])
        });
        assert_eq!(found, expected, "gain {number}, {}, {case}", self.shown());
        found.answer
    }

    /// The numbers of the comments whose value is a gain.
    pub fn gains(&self) -> Vec<u64> {
        let Ok(layout) = &self.told else {
            return Vec::new();
        };
        (0..self.count())
            .filter(|&number| layout.gain(self.bytes, number).is_ok())
            .collect()
    }

    /// What a call leaves that reads the packet first.
    fn rules<const N: usize>(&self, of: impl Fn(&Layout) -> Result<[u64; N], u32>) -> Reading {
        Reading::by_rules(match &self.told {
            Ok(layout) => of(layout),
            Err(number) => Err(*number),
        })
    }

    fn shown(&self) -> String {
        let start = &self.bytes[..self.bytes.len().min(80)];
        format!("{} bytes from {start:02x?}", self.bytes.len())
    }
}

/// The header that the library finds in a packet.
pub fn found_tags(packet: &[u8]) -> Tags {
    let mut count = 0;
    assert_eq!(ffi::tags_read(packet, &mut count), 0);
    let vendor = Reading::by_library(|part| ffi::tags_vendor(packet, part));
    let comments = (0..count)
        .map(|number| Reading::by_library(|part| ffi::tags_comment(packet, number, part)));
    let bytes = |reading: Reading| {
        assert_eq!(reading.answer, 0);
        let [start, length] = reading.numbers();
        packet[start as usize..][..length as usize].to_vec()
    };
    Tags {
        vendor: bytes(vendor),
        comments: comments.map(bytes).collect(),
    }
}

fn part(place: &Range<usize>) -> [u64; 2] {
    [place.start as u64, place.len() as u64]
}
