//! Reading and writing of comment headers, straight from RFC 7845 (section 5.2), RFC 3629 and the
//! rules in docs/PROMISES.md. Written for clearness and independent of the library: its answers are
//! what the library's are held to. What is UTF-8 and what number a text is, Rust's own library says.

use crate::head::UNFIT_FIELDS;
use crate::ogg::{take, NO_ROOM};
use std::ops::Range;

/// The packet is no comment header.
pub const BAD_TAGS: u32 = 14;
/// There is no comment of this number.
pub const NO_SUCH_COMMENT: u32 = 20;
/// The comment's value is no gain.
pub const BAD_GAIN: u32 = 21;

/// The names that may occur once only, in any case of their letters.
pub const GAINS: [&str; 2] = ["R128_TRACK_GAIN", "R128_ALBUM_GAIN"];
/// The length of the longest packet that is written.
pub const LONGEST: usize = 61_440;
/// The place of the vendor in a packet, after the signature and its length.
pub const VENDOR: usize = 12;

/// A comment header.
#[derive(Clone, Debug, PartialEq, Eq)]
pub struct Tags {
    pub vendor: Vec<u8>,
    pub comments: Vec<Vec<u8>>,
}

/// Where the vendor and the comments lie in a packet.
pub struct Layout {
    pub vendor: Range<usize>,
    pub comments: Vec<Range<usize>>,
}

impl Layout {
    /// Where a comment lies, or the refusal's number.
    pub fn comment(&self, number: u64) -> Result<Range<usize>, u32> {
        let place = usize::try_from(number).map_err(|_| NO_SUCH_COMMENT)?;
        let found = self.comments.get(place).ok_or(NO_SUCH_COMMENT)?;
        Ok(found.clone())
    }

    /// The gain that a comment of the packet has, or the refusal's number.
    pub fn gain(&self, packet: &[u8], number: u64) -> Result<i16, u32> {
        let comment = &packet[self.comment(number)?];
        gain_of(comment).ok_or(BAD_GAIN)
    }

    /// The header that the packet is.
    pub fn tags(&self, packet: &[u8]) -> Tags {
        let comments = self.comments.iter().cloned();
        Tags {
            vendor: packet[self.vendor.clone()].to_vec(),
            comments: comments.map(|place| packet[place].to_vec()).collect(),
        }
    }
}

/// The gain that the value of a comment is, if it has one.
pub fn gain_of(comment: &[u8]) -> Option<i16> {
    let (_, value) = str::from_utf8(comment).ok()?.split_once('=')?;
    if value.len() > 6 {
        return None;
    }
    value.parse().ok()
}

/// The bytes of a comment header, right or wrong.
pub fn encode(tags: &Tags) -> Vec<u8> {
    let mut bytes = b"OpusTags".to_vec();
    append(&mut bytes, &tags.vendor);
    bytes.extend((tags.comments.len() as u32).to_le_bytes());
    for comment in &tags.comments {
        append(&mut bytes, comment);
    }
    bytes
}

/// What the packet has, or the refusal's number.
pub fn read(packet: &[u8]) -> Result<Layout, u32> {
    let layout = split(packet).ok_or(BAD_TAGS)?;
    if is_right(packet, &layout) {
        Ok(layout)
    } else {
        Err(BAD_TAGS)
    }
}

/// A comment header as the writer is given it: the comments joined, and their lengths.
#[derive(Clone, Debug, PartialEq, Eq)]
pub struct JoinedTags {
    pub vendor: Vec<u8>,
    pub text: Vec<u8>,
    pub lengths: Vec<u64>,
}

impl JoinedTags {
    pub fn of(tags: &Tags) -> JoinedTags {
        JoinedTags {
            vendor: tags.vendor.clone(),
            text: tags.comments.concat(),
            lengths: tags.comments.iter().map(|c| c.len() as u64).collect(),
        }
    }

    /// The length in bytes of the packet once written.
    pub fn length(&self) -> usize {
        VENDOR + self.vendor.len() + 4 + 4 * self.lengths.len() + self.text.len()
    }

    /// The header, if the lengths sum to the text.
    fn tags(&self) -> Option<Tags> {
        let sum: u128 = self.lengths.iter().map(|&length| u128::from(length)).sum();
        if sum != self.text.len() as u128 {
            return None;
        }
        let mut rest = &self.text[..];
        let mut comments = Vec::new();
        for &length in &self.lengths {
            comments.push(rest.split_off(..length as usize)?.to_vec());
        }
        Some(Tags {
            vendor: self.vendor.clone(),
            comments,
        })
    }
}

/// The bytes to be written to an output of `room` bytes, or the refusal's number.
pub fn write(joined: &JoinedTags, room: usize) -> Result<Vec<u8>, u32> {
    if joined.length() > LONGEST {
        return Err(UNFIT_FIELDS);
    }
    let bytes = encode(&joined.tags().ok_or(UNFIT_FIELDS)?);
    if read(&bytes).is_err() {
        Err(UNFIT_FIELDS)
    } else if room < bytes.len() {
        Err(NO_ROOM)
    } else {
        Ok(bytes)
    }
}

fn append(bytes: &mut Vec<u8>, part: &[u8]) {
    bytes.extend((part.len() as u32).to_le_bytes());
    bytes.extend(part);
}

/// Where the parts lie, whatever their bytes, if none passes the end.
fn split(packet: &[u8]) -> Option<Layout> {
    let mut rest = packet;
    if take(&mut rest)? != *b"OpusTags" {
        return None;
    }
    let vendor = part(packet.len(), &mut rest)?;
    let count = u32::from_le_bytes(take(&mut rest)?);
    let mut comments = Vec::new();
    for _ in 0..count {
        comments.push(part(packet.len(), &mut rest)?);
    }
    Some(Layout { vendor, comments })
}

/// Takes a length and as many bytes off the front of what is left of a packet, and gives their
/// place.
fn part(end: usize, rest: &mut &[u8]) -> Option<Range<usize>> {
    let length = u32::from_le_bytes(take(rest)?) as usize;
    let start = end - rest.len();
    rest.split_off(..length)?;
    Some(start..start + length)
}

/// Whether the vendor and the comments are text, and the names are right.
fn is_right(packet: &[u8], layout: &Layout) -> bool {
    let text = |place: &Range<usize>| str::from_utf8(&packet[place.clone()]).ok();
    if text(&layout.vendor).is_none() {
        return false;
    }
    let Some(comments) = layout.comments.iter().map(text).collect::<Option<Vec<_>>>() else {
        return false;
    };
    let named = comments
        .iter()
        .filter_map(|comment| comment.split_once('='));
    let names: Vec<&str> = named.map(|(name, _)| name).collect();
    let is_plain = |name: &&str| name.bytes().all(|byte| (0x20..=0x7d).contains(&byte));
    let times = |gain: &str| {
        names
            .iter()
            .filter(|n| n.eq_ignore_ascii_case(gain))
            .count()
    };
    names.iter().all(is_plain) && GAINS.into_iter().all(|gain| times(gain) < 2)
}
