//! What can be saved of a damaged recording.

use crate::ending::Ending;
use crate::input::Input;
use crate::output::Output;
use crate::replaced::Replaced;
use crate::trouble::{say, Trouble};
use embulgri::lines;
use embulgri::pages::{page_end, Page};
use embulgri::reader::{Reader, Stop};
use embulgri::refusal::Refusal;
use embulgri::salvaging::{Change, Salvage};
use std::ffi::OsStr;

/// What waits to be written at most.
const ROOM: usize = 131_072;

/// Samples a second.
const RATE: u64 = 48_000;

/// Saves what it can of an input to a file, which is made whole or not at all, and prints what was
/// skipped and changed; or the refusal alone.
pub fn salvage(input: &mut Input, out: &OsStr) -> Result<Ending, Trouble> {
    input.read_whole()?;
    input.must_not_be(out)?;
    let n = input.bytes().len();
    let mut salvage = Salvage::of(n)
        .ok_or_else(|| Trouble::new(format!("no memory to salvage an input of {n} bytes")))?;
    let mut output = Output::with_room(ROOM);
    match salvage.run(input.bytes()) {
        Ok(()) => {}
        Err(why @ Refusal::HeadersIncomplete) => return output.end_stream_refused(why),
        Err(why) => return Err(Trouble::unforeseen(why)),
    }
    let told = told_of(salvage.stream())?;
    Replaced::write(out, salvage.stream())?;
    for i in 0..salvage.changes() {
        let change = salvage.change(i);
        output.put(|room, at| lines::put_change(&change, room, at))?;
    }
    output.write()?;
    tell(input, &salvage, told);
    Ok(Ending::Done)
}

/// Says in words what was saved, of which the pages and the samples of holes are given, and what is
/// lost, as far as granule positions tell.
fn tell(input: &Input, salvage: &Salvage, (pages, hole): (u64, u64)) {
    let name = input.name();
    if salvage.changes() == 0 {
        say(format_args!(
            "{name}: all {pages} pages are whole; nothing was changed"
        ));
        return;
    }
    let changes = || (0..salvage.changes()).map(|i| salvage.change(i));
    let skipped: u64 = changes().filter(is_skip).map(|change| change.bytes).sum();
    let skipped = counted(skipped, "byte", "bytes");
    let runs = counted(changes().filter(is_skip).count() as u64, "run", "runs");
    let cut = changes().filter(is_cut).count() as u64;
    let cut = counted(cut, "piece of a packet", "pieces of packets");
    let kept = counted(pages, "page", "pages");
    let lost = lost_of(input.bytes(), changes().filter(is_skip));
    let (seconds, thousandths) = (hole / RATE, hole % RATE * 1_000 / RATE);
    say(format_args!(
        "{name}: {kept} kept, by their numbers {lost} lost; {skipped} skipped, in {runs}; {cut} \
         removed; by its granule positions {seconds}.{thousandths:03} seconds of sound are missing"
    ));
}

/// A number of things, by their name in the singular or in the plural.
fn counted(n: u64, one: &str, many: &str) -> String {
    let name = if n == 1 { one } else { many };
    format!("{n} {name}")
}

fn is_skip(change: &Change) -> bool {
    change.what == 0
}

fn is_cut(change: &Change) -> bool {
    change.what == 3
}

/// How many pages are missing between the kept ones, by the numbers that these have in the input:
/// all bytes but the skipped ones are in kept pages. A number that was there before tells of none.
fn lost_of(input: &[u8], skips: impl Iterator<Item = Change>) -> u64 {
    let end = (input.len(), 0);
    let skips = skips.map(|skip| (skip.place as usize, skip.bytes as usize));
    let (mut at, mut lost, mut last) = (0, 0, None);
    for (place, bytes) in skips.chain([end]) {
        while let Some(size) = page_end(&input[at..place]) {
            let Ok(page) = Page::read(&input[at..at + size]) else {
                break;
            };
            lost += last.map_or(0, |last| missing_between(last, page.sequence));
            (last, at) = (Some(page.sequence), at + size);
        }
        at = place + bytes;
    }
    lost
}

/// How many numbers lie between two, the later one modulo 2^32 less than 2^31 after the other.
fn missing_between(last: u32, number: u32) -> u64 {
    let step = number.wrapping_sub(last).wrapping_sub(1);
    if step < 1 << 31 {
        u64::from(step)
    } else {
        0
    }
}

/// The pages of what was saved, which the library promises to be a whole stream, and the samples of
/// its holes.
fn told_of(stream: &[u8]) -> Result<(u64, u64), Trouble> {
    let mut reader = Reader::start();
    let (mut at, mut pages) = (0, 0);
    loop {
        let fed = reader.feed_pages(&stream[at..]);
        at += fed.bytes;
        pages += fed.pages;
        match fed.stop {
            Stop::Full => {}
            Stop::Cut if at == stream.len() => return Ok((pages, reader.totals().hole)),
            Stop::Cut => return Err(Trouble::unforeseen("it saved what is no whole page")),
            Stop::Refused(why) => return Err(Trouble::unforeseen(why)),
        }
    }
}
