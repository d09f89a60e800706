//! Legal pages of all sizes for the random runs, and what a change of an input is.

use crate::ogg::{self, Page};
use crate::random::Random;

/// A way to change an input, with the answers that can come of it.
pub struct Change<T> {
    pub name: &'static str,
    pub answers: &'static [u32],
    pub apply: fn(&mut Random, &mut T),
}

pub const fn change<T>(
    name: &'static str,
    answers: &'static [u32],
    apply: fn(&mut Random, &mut T),
) -> Change<T> {
    Change {
        name,
        answers,
        apply,
    }
}

/// A legal page for the writer.
pub fn page(random: &mut Random) -> Page {
    let lacing = lacing(random);
    Page {
        flags: random.below(8) as u64,
        granule: random.field(),
        serial: random.field() as u32,
        sequence: random.field() as u32,
        body: random.bytes(ogg::sum(&lacing)),
        lacing,
    }
}

/// The bytes of a page that the reader takes: its flags can be anything.
pub fn page_bytes(random: &mut Random) -> Vec<u8> {
    let mut page = page(random);
    if random.one_in(2) {
        page.flags = random.byte().into();
    }
    ogg::encode(&page)
}

/// The bytes after 0 to 15 others, so that they start at any alignment.
pub fn shifted(random: &mut Random, bytes: &[u8]) -> (Vec<u8>, usize) {
    let start = random.below(16);
    let mut buffer = random.bytes(start);
    buffer.extend(bytes);
    (buffer, start)
}

/// Lacing values of one of the shapes that pages take. The long ones are rarer, for the time they
/// need.
fn lacing(random: &mut Random) -> Vec<u8> {
    let few = random.below(6);
    let many = random.below(256);
    match random.below(32) {
        0..=2 => Vec::new(),
        3..=6 => vec![random.byte()],
        7..=9 => vec![0; many],
        10..=12 => vec![255; few],
        13..=21 => random.bytes(few),
        22..=25 => packets(random, few),
        26 => random.bytes(many),
        27 => vec![255; many],
        28 => zeros_and_full(random, many),
        29 => random.bytes(255),
        30 => vec![0; 255],
        _ => vec![255; 255],
    }
}

/// Lacing values of whole packets of up to 1,023 bytes.
fn packets(random: &mut Random, count: usize) -> Vec<u8> {
    let mut lacing = Vec::new();
    for _ in 0..count {
        let length = random.below(1024);
        lacing.resize(lacing.len() + length / 255, 255);
        lacing.push((length % 255) as u8);
    }
    lacing
}

fn zeros_and_full(random: &mut Random, count: usize) -> Vec<u8> {
    let mut lacing = random.bytes(count);
    for value in &mut lacing {
        *value = if *value < 128 { 0 } else { 255 };
    }
    lacing
}
