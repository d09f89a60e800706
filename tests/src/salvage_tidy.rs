//! A list of pages tidied, straight from the rules in docs/RULES.md (section 16): the packets that a
//! break cuts are found one by one, and their pieces are removed. Written for clearness and independent
//! of the library.

use crate::feeding::CONTINUED;
use crate::ogg::{sum, Page};

/// A page of the list, tidied.
#[derive(Clone, Debug, PartialEq, Eq)]
pub struct Tidied {
    pub page: Page,
    /// Whether its continued mark was cleared.
    pub cleared: bool,
    /// The bytes of each removed piece, the leading one first.
    pub cuts: Vec<usize>,
}

/// A packet that does not begin and end on one page, by the pages of the list that it goes over.
#[derive(Default)]
struct Packet {
    /// The page where it begins, if that page is in the list.
    begins: Option<usize>,
    /// The pages that continue it.
    continued: Vec<usize>,
    /// Whether the last of its pages hands it on.
    handed_on: bool,
}

impl Packet {
    fn first(&self) -> usize {
        self.begins.unwrap_or_else(|| self.continued[0])
    }

    fn last(&self) -> usize {
        let last = self.continued.last().copied();
        last.unwrap_or_else(|| self.first())
    }

    /// Whether a break before or after its pages cuts it.
    fn is_cut(&self, list: &[&Page]) -> bool {
        let (first, last) = (self.first(), self.last());
        let after_break = first > 0 && !follows(list[first - 1], list[first]);
        let before_break = last + 1 < list.len() && !follows(list[last], list[last + 1]);
        self.begins.is_none() && after_break || self.handed_on && before_break
    }
}

/// Whether a page follows another by their old numbers: else a break lies between them.
pub fn follows(before: &Page, after: &Page) -> bool {
    after.sequence == before.sequence.wrapping_add(1)
}

fn is_continued(page: &Page) -> bool {
    page.flags & CONTINUED != 0
}

fn completes(page: &Page) -> bool {
    page.lacing.iter().any(|&value| value < 255)
}

fn hands_on(page: &Page) -> bool {
    let is_open = |&value: &u8| value == 255;
    page.lacing.last().map_or(is_continued(page), is_open)
}

/// The packets that pages of the list continue or hand on.
fn packets(list: &[&Page]) -> Vec<Packet> {
    let mut packets = Vec::new();
    let mut open: Option<Packet> = None;
    for (number, page) in list.iter().enumerate() {
        let takes_over = is_continued(page) && number > 0 && follows(list[number - 1], page);
        if !takes_over {
            packets.extend(open.take());
        }
        if is_continued(page) {
            let mut packet = open.take().unwrap_or_default();
            packet.continued.push(number);
            packet.handed_on = !completes(page);
            match packet.handed_on {
                true => open = Some(packet),
                false => packets.push(packet),
            }
        }
        if open.is_none() && hands_on(page) {
            open = Some(Packet {
                begins: Some(number),
                continued: Vec::new(),
                handed_on: true,
            });
        }
    }
    packets.extend(open);
    packets
}

/// The pages of a list without the pieces of cut packets, numbered from 0.
pub fn tidy(list: &[&Page]) -> Vec<Tidied> {
    let mut leading = vec![false; list.len()];
    let mut trailing = vec![false; list.len()];
    for packet in packets(list).iter().filter(|packet| packet.is_cut(list)) {
        if let Some(number) = packet.begins {
            trailing[number] = true;
        }
        for &number in &packet.continued {
            leading[number] = true;
        }
    }
    let numbered = list.iter().enumerate();
    numbered
        .map(|(number, page)| tidied(page, leading[number], trailing[number], number))
        .collect()
}

/// A page without its leading piece, its trailing one, or both, and with this number.
fn tidied(page: &Page, leading: bool, trailing: bool, number: usize) -> Tidied {
    let ends = |&value: &u8| value < 255;
    let values = &page.lacing;
    let (mut from, mut to) = (0, values.len());
    if leading {
        from = values.iter().position(ends).map_or(to, |place| place + 1);
    }
    if trailing {
        to = values.iter().rposition(ends).map_or(0, |place| place + 1);
    }
    let (start, end) = (sum(&values[..from]), sum(&values[..to]));
    let mut cuts = Vec::new();
    if from > 0 {
        cuts.push(start);
    }
    if to < values.len() {
        cuts.push(page.body.len() - end);
    }
    Tidied {
        page: Page {
            flags: if leading {
                page.flags & !CONTINUED
            } else {
                page.flags
            },
            sequence: number as u32,
            lacing: values[from..to].to_vec(),
            body: page.body[start..end].to_vec(),
            ..page.clone()
        },
        cleared: leading,
        cuts,
    }
}
