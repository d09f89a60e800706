//! Checking a whole stream for what its writer did, straight from the rules in docs/RULES.md: each kind
//! of finding is looked for by itself, and all of them are put in order at the end. Written for clearness
//! and independent of the library: its answers are what the library's are held to.

use crate::crop::Whole;
use crate::feeding::LAST;
use crate::ogg::NO_ROOM;
use crate::tags;

/// The last packet is left unfinished.
pub const UNFINISHED: u64 = 1;
/// No page is marked last.
pub const NO_END: u64 = 2;
/// More is trimmed at the end than the last packet.
pub const LONG_TRIM: u64 = 3;
/// The comments have a tag of ReplayGain.
pub const REPLAY_GAIN: u64 = 4;
/// The granule position leaves a hole.
pub const HOLE: u64 = 5;

/// All the kinds of findings.
pub const KINDS: [u64; 5] = [UNFINISHED, NO_END, LONG_TRIM, REPLAY_GAIN, HOLE];

/// The names of the tags of ReplayGain, in any case of their letters.
pub const NAMES: [&str; 4] = [
    "REPLAYGAIN_TRACK_GAIN",
    "REPLAYGAIN_TRACK_PEAK",
    "REPLAYGAIN_ALBUM_GAIN",
    "REPLAYGAIN_ALBUM_PEAK",
];

/// The lists that a call is lent, of kinds and of pages.
pub const LISTS: usize = 2;

/// A finding. They are in the order of pages, and on one page in that of kinds.
#[derive(Clone, Copy, Debug, PartialEq, Eq, PartialOrd, Ord)]
pub struct Finding {
    /// The page, of which the first is 0.
    pub page: u64,
    pub kind: u64,
}

/// Whether a packet is begun and not completed after all pages: the last lacing value of all goes on.
pub fn is_unfinished(whole: &Whole) -> bool {
    let values = whole.pages.iter().flat_map(|fed| &fed.page.lacing);
    values.last() == Some(&255)
}

/// Whether some page is marked last.
pub fn has_end(whole: &Whole) -> bool {
    whole.pages.iter().any(|fed| fed.page.flags & LAST != 0)
}

/// Whether more is trimmed on the last page than the last completed packet has, of those of all pages.
fn trims_much(whole: &Whole) -> bool {
    let last = whole.pages.last().expect("a page");
    let packets = whole.pages.iter().flat_map(|fed| &fed.packets);
    last.trimmed > packets.last().map_or(0, |packet| packet.length)
}

/// The comments of the stream. The header pages after the first have nothing but the comment packet.
pub fn comments(whole: &Whole) -> Vec<Vec<u8>> {
    let pages = &whole.pages[1..whole.headers];
    let bodies = pages.iter().map(|fed| &fed.page.body[..]);
    let packet = bodies.collect::<Vec<_>>().concat();
    let layout = tags::read(&packet).expect("right comments");
    layout.tags(&packet).comments
}

/// Which of the names of ReplayGain a comment has: what precedes its first "=" is its name.
pub fn replay_gain_name(comment: &[u8]) -> Option<&'static str> {
    let end = comment.iter().position(|&byte| byte == b'=')?;
    let name = &comment[..end];
    let mut names = NAMES.into_iter();
    names.find(|known| known.as_bytes().eq_ignore_ascii_case(name))
}

/// The findings on a whole stream, in their order.
pub fn findings(whole: &Whole) -> Vec<Finding> {
    let comments = comments(whole);
    let is_tagged = comments.iter().any(|c| replay_gain_name(c).is_some());
    let last = whole.pages.len() as u64 - 1;
    let tags = whole.headers as u64 - 1;
    let mut looked_for = vec![
        (UNFINISHED, last, is_unfinished(whole)),
        (NO_END, last, !has_end(whole)),
        (LONG_TRIM, last, trims_much(whole)),
        (REPLAY_GAIN, tags, is_tagged),
    ];
    for (page, fed) in (0..).zip(&whole.pages) {
        looked_for.push((HOLE, page, fed.hole > 0));
    }
    let found = looked_for.into_iter().filter(|(_, _, is_found)| *is_found);
    let mut findings: Vec<Finding> = found
        .map(|(kind, page, _)| Finding { page, kind })
        .collect();
    findings.sort();
    findings
}

/// The findings on the stream in a buffer, or its number if it is not whole.
pub fn check(bytes: &[u8]) -> Result<Vec<Finding>, u32> {
    Ok(findings(&Whole::of(bytes)?))
}

/// What is stored in lists of so many places, or the refusal's number.
pub fn stored(told: &Result<Vec<Finding>, u32>, rooms: [usize; LISTS]) -> Result<&[Finding], u32> {
    let findings = told.as_ref().map_err(|&number| number)?;
    match rooms.into_iter().any(|room| room < findings.len()) {
        true => Err(NO_ROOM),
        false => Ok(findings),
    }
}
