//! The lines that the program `embulgri` prints, put into lent memory. Each function that puts one
//! line at a place gives the place after it, or the same place where the line does not fit; it
//! refuses nothing.
//!
//! ```
//! use embulgri::lines::{put_entries, put_first, put_total};
//! use embulgri::reader::Reader;
//!
//! let stream = std::fs::read("../examples/drip.opus")?;
//! let mut reader = Reader::start();
//! let packets = reader.feed_pages(&stream).packets;
//! let mut out = [0; 10_000];
//! let at = put_first(&mut out, 0);
//! let put = put_entries(&reader, 0..packets, &mut out, at);
//! let end = put_total(&reader, &mut out, put.at);
//! let listing = std::fs::read("../examples/drip.lines")?;
//! assert_eq!(put.count, packets);
//! assert_eq!(out[..end], listing);
//! # Ok::<(), std::io::Error>(())
//! ```

use crate::ffi::lines as ffi;
use crate::reader::Reader;
use crate::records::{Index, Record};
use crate::refusal::{accepted, Refusal};
use crate::salvaging::Change;
use std::ops::Range;

/// What was put of the lines of packets or records.
#[derive(Clone, Copy, Debug, PartialEq, Eq)]
pub struct Put {
    /// How many lines.
    pub count: usize,
    /// The place after them.
    pub at: usize,
}

/// The line above all packets.
///
/// ```
/// use embulgri::lines::put_first;
///
/// let mut out = [0; 60];
/// let end = put_first(&mut out, 0);
/// assert_eq!(&out[..end], b"end dur frames kept\n");
/// ```
pub fn put_first(out: &mut [u8], at: usize) -> usize {
    ffi::list_first(out, at as u64) as usize
}

/// The last line of a listing that was not refused: the totals of its reader.
///
/// ```
/// use embulgri::lines::put_total;
/// use embulgri::reader::Reader;
///
/// let mut out = [0; 60];
/// let end = put_total(&Reader::start(), &mut out, 0);
/// assert_eq!(&out[..end], b"total kept=0 skipped=0 trimmed=0 hole=0\n");
/// ```
pub fn put_total(reader: &Reader, out: &mut [u8], at: usize) -> usize {
    ffi::list_total(&reader.state, out, at as u64) as usize
}

/// The last line after a refusal of a page.
///
/// ```
/// use embulgri::lines::put_refused;
/// use embulgri::refusal::Refusal;
///
/// let mut out = [0; 60];
/// let end = put_refused(Refusal::WrongChecksum, 2, &mut out, 0);
/// assert_eq!(&out[..end], b"refused 4 page 2\n");
/// ```
pub fn put_refused(why: Refusal, page: u64, out: &mut [u8], at: usize) -> usize {
    let number = u64::from(why.number());
    ffi::list_refused(number, page, out, at as u64) as usize
}

/// The lines of the packets in these places of a reader's lists, as many as surely fit: as long as
/// there is room for the longest line. It panics where the places are not below
/// [`PLACES`](crate::PLACES).
///
/// ```
/// use embulgri::lines::{put_entries, Put};
/// use embulgri::reader::Reader;
///
/// let stream = std::fs::read("../examples/drip.opus")?;
/// let mut reader = Reader::start();
/// reader.feed_pages(&stream);
/// let mut out = [0; 100];
/// let put = put_entries(&reader, 0..50, &mut out, 0);
/// assert_eq!(put, Put { count: 2, at: 29 });
/// assert_eq!(&out[..29], b"960 960 1 648\n1920 960 1 960\n");
/// # Ok::<(), std::io::Error>(())
/// ```
pub fn put_entries(reader: &Reader, places: Range<usize>, out: &mut [u8], at: usize) -> Put {
    let ends = &reader.ends[places.clone()];
    let lengths = &reader.lengths[places.clone()];
    let frames = &reader.frames[places.clone()];
    let kept = &reader.kept[places];
    let mut put = [0; 2];
    ffi::list_entries(ends, lengths, frames, kept, out, at as u64, &mut put);
    Put {
        count: put[0] as usize,
        at: put[1] as usize,
    }
}

/// All lines of an identification header and a comment header, from the start of `out` on. Gives
/// their length.
///
/// Refuses what [`Head::read`](crate::head::Head::read) and
/// [`Comments::read`](crate::comments::Comments::read) refuse, and by [`Refusal::ShortOutput`] an
/// `out` in which the lines do not fit; that then has those pieces of them that fit one after the
/// other.
///
/// ```
/// use embulgri::lines::put_headers;
/// use embulgri::refusal::Refusal;
///
/// let stream = std::fs::read("../examples/drip.opus")?;
/// let (head, tags) = (&stream[28..47], &stream[77..841]);
/// let mut out = [0; 1_000];
/// let n = put_headers(head, tags, &mut out).expect("two headers");
/// let lines = std::str::from_utf8(&out[..n]).expect("text");
/// assert!(lines.lines().any(|line| line == "comment title=Drips"));
/// assert_eq!(put_headers(head, head, &mut out), Err(Refusal::BadTags));
/// # Ok::<(), std::io::Error>(())
/// ```
pub fn put_headers(head: &[u8], tags: &[u8], out: &mut [u8]) -> Result<usize, Refusal> {
    let mut written = 0;
    let number = ffi::header_lines(head, tags, out, &mut written);
    accepted(number)?;
    Ok(written as usize)
}

/// The line of a refusal that names no page.
///
/// ```
/// use embulgri::lines::put_stream_refused;
/// use embulgri::refusal::Refusal;
///
/// let mut out = [0; 60];
/// let end = put_stream_refused(Refusal::HeadersIncomplete, &mut out, 0);
/// assert_eq!(&out[..end], b"refused 24\n");
/// ```
pub fn put_stream_refused(why: Refusal, out: &mut [u8], at: usize) -> usize {
    let number = u64::from(why.number());
    ffi::index_refused(number, out, at as u64) as usize
}

/// The line above all records of an index.
///
/// ```
/// use embulgri::lines::put_index_first;
///
/// let mut out = [0; 60];
/// let end = put_index_first(&mut out, 0);
/// assert_eq!(&out[..end], b"granule place sequence\n");
/// ```
pub fn put_index_first(out: &mut [u8], at: usize) -> usize {
    ffi::index_first(out, at as u64) as usize
}

/// The lines of the records with these numbers, as many as surely fit: as long as there is room for
/// the longest line. It panics where the index does not have them.
///
/// ```
/// use embulgri::lines::{put_records, Put};
/// use embulgri::records::{Index, Record};
///
/// let mut index = Index::with_room(1).expect("memory");
/// index.set(0, Record { granule: 960, place: 5_123, sequence: 2 });
/// let mut out = [0; 60];
/// assert_eq!(put_records(&index, 0..1, &mut out, 0), Put { count: 1, at: 11 });
/// assert_eq!(&out[..11], b"960 5123 2\n");
/// ```
pub fn put_records(index: &Index, numbers: Range<usize>, out: &mut [u8], at: usize) -> Put {
    let granules = &index.granules[numbers.clone()];
    let places = &index.places[numbers.clone()];
    let sequences = &index.sequences[numbers];
    let mut put = [0; 2];
    ffi::index_records(granules, places, sequences, out, at as u64, &mut put);
    Put {
        count: put[0] as usize,
        at: put[1] as usize,
    }
}

/// The line above what a search found.
///
/// ```
/// use embulgri::lines::put_seek_first;
///
/// let mut out = [0; 60];
/// let end = put_seek_first(&mut out, 0);
/// assert_eq!(&out[..end], b"granule place sequence probes\n");
/// ```
pub fn put_seek_first(out: &mut [u8], at: usize) -> usize {
    ffi::seek_first(out, at as u64) as usize
}

/// The line of the record that a search found, after so many probes.
///
/// ```
/// use embulgri::lines::put_found;
/// use embulgri::records::Record;
///
/// let record = Record { granule: 960, place: 5_123, sequence: 2 };
/// let mut out = [0; 60];
/// let end = put_found(&record, 7, &mut out, 0);
/// assert_eq!(&out[..end], b"960 5123 2 7\n");
/// ```
pub fn put_found(record: &Record, probes: u64, out: &mut [u8], at: usize) -> usize {
    ffi::seek_found(
        record.granule,
        record.place,
        record.sequence,
        probes,
        out,
        at as u64,
    ) as usize
}

/// The line of a search that found no record early enough, after so many probes.
///
/// ```
/// use embulgri::lines::put_begin;
///
/// let mut out = [0; 60];
/// let end = put_begin(7, &mut out, 0);
/// assert_eq!(&out[..end], b"begin 7\n");
/// ```
pub fn put_begin(probes: u64, out: &mut [u8], at: usize) -> usize {
    ffi::seek_begin(probes, out, at as u64) as usize
}

/// The line of a refusal of an index, for the record at a place.
///
/// ```
/// use embulgri::lines::put_index_refused;
/// use embulgri::refusal::Refusal;
///
/// let mut out = [0; 60];
/// let end = put_index_refused(Refusal::FallingGranule, 3, &mut out, 0);
/// assert_eq!(&out[..end], b"refused 26 place 3\n");
/// ```
pub fn put_index_refused(why: Refusal, place: u64, out: &mut [u8], at: usize) -> usize {
    let number = u64::from(why.number());
    ffi::seek_refused(number, place, out, at as u64) as usize
}

/// The line of something that salvage skipped or changed.
///
/// ```
/// use embulgri::lines::put_change;
/// use embulgri::salvaging::Change;
///
/// let change = Change { what: 3, place: 5_123, bytes: 255 };
/// let mut out = [0; 60];
/// let end = put_change(&change, &mut out, 0);
/// assert_eq!(&out[..end], b"cut 5123 255\n");
/// ```
pub fn put_change(change: &Change, out: &mut [u8], at: usize) -> usize {
    ffi::salvage_line(change.what, change.place, change.bytes, out, at as u64) as usize
}
