//! Feeding a page to a reader, straight from RFC 7845 (sections 3 and 4) and the rules in
//! docs/PROMISES.md. Written for clearness and independent of the library: its answers are what the
//! library's are held to.

use crate::head;
use crate::ogg::{self, Page};
use crate::opus;
use crate::pieces::{pieces, Piece};
use crate::reader::{Phase, Position, Reader, Unfinished};
use crate::stamps::{Completing, Listing};
use crate::tags::{self, BAD_TAGS, LONGEST};

/// A lent list or the carry buffer is too short.
pub const SHORT_ROOM: u32 = 1;
/// The stream has ended.
pub const AFTER_END: u32 = 2;
/// The serial is not the first page's.
pub const OTHER_SERIAL: u32 = 5;
/// The sequence number is not the one that is due.
pub const OUT_OF_SEQUENCE: u32 = 6;
/// A flag is unknown, or a mark is where it cannot be or is not where it must be.
pub const WRONG_FLAGS: u32 = 7;
/// The continued mark is not right.
pub const WRONG_CONTINUED: u32 = 8;
/// A packet would be longer than 61,440 bytes.
pub const LONG_PACKET: u32 = 9;
/// A header page has anything but its packet.
pub const HEADER_SHAPE: u32 = 10;
/// The granule field cannot be on this page.
pub const WRONG_GRANULE: u32 = 11;

/// The refusals that feeding can give.
pub const REFUSALS: [u32; 19] = [
    1, 2, 3, 4, 5, 6, 7, 8, 9, 10, 11, 12, 13, 14, 15, 16, 17, 18, 19,
];

/// The flags of a page.
pub const CONTINUED: u64 = 1;
pub const FIRST: u64 = 2;
pub const LAST: u64 = 4;

/// The granule field where no packet completes.
pub const NO_GRANULE: u64 = u64::MAX;
/// The largest granule position.
pub const MOST_GRANULE: u64 = (1 << 63) - 1;
/// The places that each of the lists must have.
pub const LIST: usize = 255;
/// How many lists a call is lent.
pub const LISTS: usize = 4;

/// The memory that a call is lent: the carry buffer, and the lists of end stamps, lengths, kept counts
/// and frames.
pub struct Lent<'a> {
    pub carry: &'a mut [u8],
    pub lists: [&'a mut [u64]; LISTS],
}

/// Feeds a page: what it lists, or the refusal's number. The reader and the lists change only where
/// the page is accepted.
pub fn feed(reader: &mut Reader, bytes: &[u8], lent: &mut Lent) -> Result<Listing, u32> {
    if lent.carry.len() < LONGEST || lent.lists.iter().any(|list| list.len() < LIST) {
        return Err(SHORT_ROOM);
    }
    if reader.phase == Phase::Ended {
        return Err(AFTER_END);
    }
    let page = ogg::read(bytes)?;
    check_fields(reader, &page)?;
    let feeding = Feeding {
        unfinished: unfinished_before(reader, &page),
        pieces: pieces(&page),
        page: &page,
    };
    feeding.check_lengths()?;
    feeding.check_shape(reader)?;
    feeding.check_granule(reader)?;
    feeding.append(reader, lent.carry);
    let mut next = reader.clone();
    let listing = match reader.phase {
        Phase::First => feeding.take_head(&mut next)?,
        Phase::Comment => feeding.take_comments(&mut next, lent.carry)?,
        _ => feeding.take_audio(&mut next, lent.carry)?,
    };
    feeding.finish(&mut next, lent.carry);
    next.count(&listing);
    *reader = next;
    for (place, entry) in listing.entries.iter().enumerate() {
        let fields = [entry.end, entry.length, entry.kept, entry.frames];
        for (list, field) in lent.lists.iter_mut().zip(fields) {
            list[place] = field;
        }
    }
    Ok(listing)
}

/// 5 to 8.
fn check_fields(reader: &Reader, page: &Page) -> Result<(), u32> {
    let marked = |flag| page.flags & flag != 0;
    let is_first = reader.phase == Phase::First;
    let is_opened = reader.phase == Phase::Opened;
    if !is_first && !is_opened && page.serial != reader.serial {
        return Err(OTHER_SERIAL);
    }
    let due = if is_first { 0 } else { reader.next };
    if !is_opened && page.sequence != due {
        return Err(OUT_OF_SEQUENCE);
    }
    let ends_early = marked(LAST) && reader.is_in_headers();
    if page.flags > 7 || marked(FIRST) != is_first || ends_early {
        return Err(WRONG_FLAGS);
    }
    let is_unfinished = !is_first && reader.unfinished != Unfinished::Nothing;
    if !is_opened && marked(CONTINUED) != is_unfinished {
        return Err(WRONG_CONTINUED);
    }
    Ok(())
}

/// The packet that the page continues.
fn unfinished_before(reader: &Reader, page: &Page) -> Unfinished {
    match reader.phase {
        Phase::First => Unfinished::Nothing,
        Phase::Opened if page.flags & CONTINUED != 0 => Unfinished::Dropped,
        Phase::Opened => Unfinished::Nothing,
        _ => reader.unfinished,
    }
}

/// A page whose fields are right, and the packet that it continues.
struct Feeding<'a> {
    unfinished: Unfinished,
    pieces: Vec<Piece<'a>>,
    page: &'a Page,
}

impl Feeding<'_> {
    fn completes(&self) -> bool {
        self.pieces.iter().any(|piece| piece.ends)
    }

    fn held(&self) -> u64 {
        match self.unfinished {
            Unfinished::Held(held) => held,
            _ => 0,
        }
    }

    /// 9. A dropped packet is not measured.
    fn check_lengths(&self) -> Result<(), u32> {
        let mut lengths: Vec<u128> = self.pieces.iter().map(|p| p.bytes.len() as u128).collect();
        if self.unfinished == Unfinished::Dropped && !lengths.is_empty() {
            lengths.remove(0);
        } else if let Unfinished::Held(held) = self.unfinished {
            lengths.resize(lengths.len().max(1), 0);
            lengths[0] += u128::from(held);
        }
        match lengths.iter().any(|&length| length > LONGEST as u128) {
            true => Err(LONG_PACKET),
            false => Ok(()),
        }
    }

    /// 10.
    fn check_shape(&self, reader: &Reader) -> Result<(), u32> {
        let is_right = match reader.phase {
            Phase::First => self.pieces.len() == 1 && self.completes(),
            Phase::Comment => self.pieces.len() == 1,
            _ => true,
        };
        if is_right {
            Ok(())
        } else {
            Err(HEADER_SHAPE)
        }
    }

    /// 11.
    fn check_granule(&self, reader: &Reader) -> Result<(), u32> {
        let granule = self.page.granule;
        let is_right = match (self.completes(), reader.is_in_headers()) {
            (false, _) => granule == NO_GRANULE,
            (true, true) => granule == 0,
            (true, false) => granule <= MOST_GRANULE,
        };
        if is_right {
            Ok(())
        } else {
            Err(WRONG_GRANULE)
        }
    }

    /// Appends the continuing piece, or any piece of the comment packet, to the held bytes.
    fn append(&self, reader: &Reader, carry: &mut [u8]) {
        let goes_there = match self.unfinished {
            Unfinished::Held(_) => true,
            Unfinished::Nothing => reader.phase == Phase::Comment,
            Unfinished::Dropped => false,
        };
        if let (true, Some(piece)) = (goes_there, self.pieces.first()) {
            let held = self.held() as usize;
            carry[held..][..piece.bytes.len()].copy_from_slice(piece.bytes);
        }
    }

    /// The packet that the first piece is the end of, the carry buffer having the piece already.
    fn continued<'a>(&'a self, carry: &'a [u8]) -> &'a [u8] {
        let piece = self.pieces[0].bytes;
        match self.unfinished {
            Unfinished::Held(held) => &carry[..held as usize + piece.len()],
            _ => piece,
        }
    }

    /// 12 and 13.
    fn take_head(&self, next: &mut Reader) -> Result<Listing, u32> {
        let head = head::read(self.pieces[0].bytes)?;
        next.phase = Phase::Comment;
        next.streams = head.streams as u8;
        next.pre_skip = head.pre_skip as u16;
        next.to_skip = next.pre_skip;
        Ok(Listing::default())
    }

    /// 14, also where the packet was dropped: no stream has such comments, but numbers from outside
    /// can say so, and then there is no packet to be right.
    fn take_comments(&self, next: &mut Reader, carry: &[u8]) -> Result<Listing, u32> {
        if self.completes() {
            if self.unfinished == Unfinished::Dropped {
                return Err(BAD_TAGS);
            }
            tags::read(self.continued(carry))?;
            next.phase = Phase::Audio;
        }
        Ok(Listing::default())
    }

    /// 15 to 19. Numbers from outside can say that there are 0 streams, which count as 1.
    fn take_audio(&self, next: &mut Reader, carry: &[u8]) -> Result<Listing, u32> {
        let streams = u64::from(next.streams.max(1));
        let mut packets = Vec::new();
        for (place, piece) in self.pieces.iter().enumerate().filter(|(_, p)| p.ends) {
            let packet = match (place, self.unfinished) {
                (0, Unfinished::Dropped) => continue,
                (0, _) => self.continued(carry),
                _ => piece.bytes,
            };
            packets.push(opus::read(packet, streams)?);
        }
        let last = self.page.flags & LAST != 0;
        next.phase = if last { Phase::Ended } else { Phase::Audio };
        if !self.completes() {
            return Ok(Listing::default());
        }
        let completing = Completing {
            position: next.position,
            pre_skip: next.pre_skip,
            to_skip: next.to_skip,
            granule: self.page.granule,
            last,
            packets: &packets,
        };
        let listing = completing.listing()?;
        next.position = Position::At(self.page.granule);
        next.to_skip -= listing.samples().min(next.to_skip.into()) as u16;
        Ok(listing)
    }

    /// What every accepted page leaves. A new packet left unfinished is written from place 0.
    fn finish(&self, next: &mut Reader, carry: &mut [u8]) {
        next.serial = self.page.serial;
        next.next = self.page.sequence.wrapping_add(1);
        next.unfinished = match self.pieces.last() {
            Some(piece) if piece.ends => Unfinished::Nothing,
            Some(piece) if self.pieces.len() > 1 || self.unfinished == Unfinished::Nothing => {
                carry[..piece.bytes.len()].copy_from_slice(piece.bytes);
                Unfinished::Held(piece.bytes.len() as u64)
            }
            Some(piece) if self.unfinished != Unfinished::Dropped => {
                Unfinished::Held(self.held() + piece.bytes.len() as u64)
            }
            _ => self.unfinished,
        };
    }
}
