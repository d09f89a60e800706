//! The two headers as lines of text, straight from docs/RULES.md (section 13), with the characters
//! that crates/text_escape/specs/Hidden.antt says are hidden. Written for clearness and independent of
//! the library: its answers are what the library's are held to.

use crate::head::{self, Head, MATRIX};
use crate::tags::{self, gain_of, Tags, GAINS};
use std::ops::RangeInclusive;

/// The characters that are not shown as they are.
pub const HIDDEN: [RangeInclusive<char>; 15] = [
    '\0'..='\u{1f}',
    '\\'..='\\',
    '\u{7f}'..='\u{9f}',
    '\u{ad}'..='\u{ad}',
    '\u{61c}'..='\u{61c}',
    '\u{180e}'..='\u{180e}',
    '\u{200b}'..='\u{200f}',
    '\u{2028}'..='\u{202e}',
    '\u{2060}'..='\u{206f}',
    '\u{e000}'..='\u{f8ff}',
    '\u{feff}'..='\u{feff}',
    '\u{fff9}'..='\u{fffb}',
    '\u{fffe}'..='\u{ffff}',
    '\u{e0000}'..='\u{e007f}',
    '\u{f0000}'..='\u{10ffff}',
];

/// All the lines of an identification header packet and a comment header packet, or the refusal's
/// number.
pub fn text(head: &[u8], comments: &[u8]) -> Result<String, u32> {
    let head = head::read(head)?;
    let tags = tags::read(comments)?.tags(comments);
    Ok(head_lines(&head) + &tags_lines(&tags))
}

fn head_lines(head: &Head) -> String {
    let gain = (head.gain as u16).cast_signed();
    let lines = [
        format!("version {}", head.version),
        format!("channels {}", head.channels),
        format!("preskip {}", head.pre_skip),
        format!("rate {}", head.rate),
        format!("gain {gain}\t{}", decibels(gain)),
        format!("family {}", head.family),
        format!("streams {}", head.streams),
        format!("coupled {}", head.coupled),
        match head.family {
            MATRIX => format!("matrix{}", spaced(&entries(head))),
            _ => format!("mapping{}", spaced(&head.mapping[..head.indices()])),
        },
    ];
    lines.map(|line| line + "\n").concat()
}

fn tags_lines(tags: &Tags) -> String {
    let mut lines = format!("vendor {}\n", escaped(&tags.vendor));
    lines += &format!("comments {}\n", tags.comments.len());
    for comment in &tags.comments {
        lines += &format!("comment {}{}\n", escaped(comment), gain_after(comment));
    }
    lines
}

/// What follows a comment: the decibels, if it is one of the two gains and its text is right.
fn gain_after(comment: &[u8]) -> String {
    let name = comment.split(|&byte| byte == b'=').next();
    let is_gain = |gain: &str| name.is_some_and(|n| n.eq_ignore_ascii_case(gain.as_bytes()));
    match gain_of(comment) {
        Some(gain) if GAINS.into_iter().any(is_gain) => format!("\t{}", decibels(gain)),
        _ => String::new(),
    }
}

/// The entries of a matrix, in the order in which they are stored.
fn entries(head: &Head) -> Vec<i16> {
    let (entries, _) = head.matrix.as_chunks();
    entries
        .iter()
        .map(|&bytes| i16::from_le_bytes(bytes))
        .collect()
}

/// Numbers, each after a space.
fn spaced<T: ToString>(numbers: &[T]) -> String {
    let texts = numbers.iter().map(|number| number.to_string());
    texts.map(|text| format!(" {text}")).collect()
}

/// A gain, which is a number of 256ths of a decibel, in 100,000,000ths of one: that is exact.
pub fn decibels(gain: i16) -> String {
    let size = u64::from(gain.unsigned_abs()) * 100_000_000 / 256;
    let sign = if gain < 0 { "-" } else { "" };
    format!("{sign}{}.{:08} dB", size / 100_000_000, size % 100_000_000)
}

/// A text as it is shown: `\\` for a backslash, and `\xHH` for each byte of another hidden character.
pub fn escaped(text: &[u8]) -> String {
    let text = str::from_utf8(text).expect("the text of a right comment header");
    text.chars().map(shown).collect()
}

fn shown(character: char) -> String {
    let itself = character.to_string();
    if character == '\\' {
        return r"\\".to_string();
    }
    match HIDDEN.iter().any(|hidden| hidden.contains(&character)) {
        true => itself
            .bytes()
            .map(|byte| format!(r"\x{byte:02X}"))
            .collect(),
        false => itself,
    }
}
