//! Ogg Opus streams, read to the sample (RFC 3533, RFC 6716, RFC 7845, RFC 8486): the verified
//! library of `include/embulgri.h`, on slices.
//!
//! Every function of the library is proved to do what its rules say (`docs/RULES.md`). This crate
//! lends it memory, and gives its answers as values of Rust's types; it decides nothing. Whatever
//! bytes a function gets, it answers, or it refuses them by one [`refusal::Refusal`]. A function
//! that can refuse gives a [`Result`]; only [`Reader::feed_pages`](reader::Reader::feed_pages)
//! tells the refusal beside how far it came. Any other function refuses nothing. A slice's pointer
//! is never null, also where its length is 0, and the borrow rules keep lent memory from
//! overlapping, as the library asks. All unsafe code is in one private module, `ffi`.
//!
//! A crate that depends on this one by its path links the library too, once `tools/staticlib embulgri`
//! and `tools/staticlib embulgri_program` have written it. It is for x86-64 Linux.
//!
//! - [`reader`]: a stream followed page by page, or by the pages of a buffer, from its start or
//!   part way: the end stamp, the length, the frames and the kept samples of each packet
//! - [`pages`]: pages read, written and found in a buffer, their checksum, and a whole stream
//!   judged
//! - [`head`]: identification headers read and written, and their matrix
//! - [`comments`]: comment headers read and written, and the gains in them
//! - [`packets`]: audio packets read alone
//! - [`records`]: the index of a stream, and the search in it
//! - [`salvaging`]: what can be saved of damaged bytes
//! - [`cropping`]: a stream from one of its pages on
//! - [`checking`]: what the writer of a stream was advised against
//! - [`clock`]: the old clock, for logs of the old reader
//! - [`lines`]: the lines that the program `embulgri` prints
//! - [`refusal`]: the refusals, with their numbers and words
//!
//! Samples are at 48,000 a second. Examples read the recording `examples/drip.opus`, of six
//! seconds:
//!
//! ```
//! use embulgri::reader::{Reader, Stop};
//!
//! let stream = std::fs::read("../examples/drip.opus")?;
//! let mut reader = Reader::start();
//! let fed = reader.feed_pages(&stream);
//! assert!(matches!(fed.stop, Stop::Cut), "no page is refused");
//! assert_eq!((fed.bytes, fed.packets), (stream.len(), 301));
//!
//! let first = reader.packet(0);
//! assert_eq!((first.end, first.length, first.kept), (960, 960, 648));
//! assert_eq!(reader.totals().kept, 6 * 48_000);
//! # Ok::<(), std::io::Error>(())
//! ```

#![deny(missing_docs, unsafe_code)]

pub mod checking;
pub mod clock;
pub mod comments;
pub mod cropping;
#[allow(unsafe_code)]
mod ffi;
pub mod head;
pub mod lines;
pub mod packets;
pub mod pages;
pub mod reader;
pub mod records;
pub mod refusal;
pub mod salvaging;

/// The most bytes that a packet has, and what a carry buffer needs.
pub const PACKET_MAX: usize = 61_440;

/// The places of each list that a reader is lent; a page fills at most 255 of them.
pub const PLACES: usize = 1_024;

/// As many bytes as the lines of two headers ever take.
pub const HEADER_LINES_MAX: usize = 1_048_576;
