//! An index of a stream, in three lists, and the search in it.
//!
//! ```
//! use embulgri::records::{count_of, Index, Sought};
//!
//! let stream = std::fs::read("../examples/drip.opus")?;
//! let mut index = Index::with_room(count_of(&stream)).expect("memory");
//! index.build(&stream).expect("a whole stream");
//! assert_eq!(index.count(), 7);
//!
//! let Ok(Sought::Record { number, probes }) = index.seek(240_000) else {
//!     panic!("the stream begins before that");
//! };
//! let record = index.record(number);
//! assert_eq!((record.granule, record.place, record.sequence), (192_000, 8_330, 5));
//! assert_eq!(probes, 3);
//! # Ok::<(), std::io::Error>(())
//! ```

use crate::ffi;
use crate::refusal::{accepted, Refusal};
use std::error::Error;
use std::fmt;

/// What is told of a page where an audio packet completes.
#[derive(Clone, Copy, Debug, PartialEq, Eq)]
pub struct Record {
    /// Its granule position.
    pub granule: u64,
    /// The place of its first byte in the stream.
    pub place: u64,
    /// Its sequence number.
    pub sequence: u32,
}

/// An index of 20 bytes a record.
#[derive(Clone, Debug, PartialEq, Eq)]
pub struct Index {
    pub(crate) granules: Vec<u64>,
    pub(crate) places: Vec<u64>,
    pub(crate) sequences: Vec<u32>,
}

/// What a search found.
#[derive(Clone, Copy, Debug, PartialEq, Eq)]
pub enum Sought {
    /// A record.
    Record {
        /// Its number, the first being 0.
        number: usize,
        /// How many records were looked at.
        probes: u64,
    },
    /// No record is early enough.
    Begin {
        /// How many records were looked at.
        probes: u64,
    },
}

/// Why an index is not searched.
#[derive(Clone, Copy, Debug, PartialEq, Eq)]
pub struct Refused {
    /// The refusal.
    pub why: Refusal,
    /// The number of the record for which it is given, the first being 0.
    pub place: u64,
}

impl fmt::Display for Refused {
    fn fmt(&self, f: &mut fmt::Formatter) -> fmt::Result {
        write!(f, "the record at place {} is {}", self.place, self.why)
    }
}

impl Error for Refused {}

/// How many records the index of a stream has. Of bytes that are no whole stream the number means
/// nothing.
///
/// It refuses nothing.
///
/// ```
/// use embulgri::records::count_of;
///
/// let stream = std::fs::read("../examples/drip.opus")?;
/// assert_eq!(count_of(&stream), 7);
/// # Ok::<(), std::io::Error>(())
/// ```
pub fn count_of(stream: &[u8]) -> usize {
    ffi::index_count(stream) as usize
}

impl Index {
    /// An index of so many records, all of zeros; none where there is no memory for it.
    ///
    /// ```
    /// use embulgri::records::{Index, Record};
    ///
    /// let index = Index::with_room(2).expect("memory");
    /// assert_eq!(index.count(), 2);
    /// assert_eq!(index.record(1), Record { granule: 0, place: 0, sequence: 0 });
    /// ```
    pub fn with_room(n: usize) -> Option<Index> {
        Some(Index {
            granules: zeros(n)?,
            places: zeros(n)?,
            sequences: zeros(n)?,
        })
    }

    /// How many records it has. An example is at [`Index::with_room`].
    pub fn count(&self) -> usize {
        self.granules.len()
    }

    /// The record with this number, the first being 0. It panics where there is none. An example is
    /// at [`Index::with_room`].
    pub fn record(&self, i: usize) -> Record {
        Record {
            granule: self.granules[i],
            place: self.places[i],
            sequence: self.sequences[i],
        }
    }

    /// Stores the record with this number, the first being 0. It panics where there is none.
    ///
    /// ```
    /// use embulgri::records::{Index, Record};
    ///
    /// let mut index = Index::with_room(1).expect("memory");
    /// let record = Record { granule: 960, place: 5_123, sequence: 2 };
    /// index.set(0, record);
    /// assert_eq!(index.record(0), record);
    /// ```
    pub fn set(&mut self, i: usize, record: Record) {
        self.granules[i] = record.granule;
        self.places[i] = record.place;
        self.sequences[i] = record.sequence;
    }

    /// Becomes the index of a whole stream, which has no more records than this one.
    ///
    /// Refuses a stream that is not whole by the refusal of [`judge`](crate::pages::judge), and by
    /// [`Refusal::ShortOutput`] one that has more records. The index stays as it was then.
    ///
    /// ```
    /// use embulgri::records::{Index, Record};
    /// use embulgri::refusal::Refusal;
    ///
    /// let stream = std::fs::read("../examples/drip.opus")?;
    /// let mut index = Index::with_room(7).expect("memory");
    /// assert_eq!(index.build(&stream[..47]), Err(Refusal::HeadersIncomplete));
    /// assert_eq!(index.build(&stream), Ok(()));
    /// assert_eq!(index.record(0), Record { granule: 48_000, place: 841, sequence: 2 });
    ///
    /// let mut short = Index::with_room(6).expect("memory");
    /// assert_eq!(short.build(&stream), Err(Refusal::ShortOutput));
    /// # Ok::<(), std::io::Error>(())
    /// ```
    pub fn build(&mut self, stream: &[u8]) -> Result<(), Refusal> {
        let mut count = 0;
        let number = ffi::index_build(
            stream,
            &mut self.granules,
            &mut self.places,
            &mut self.sequences,
            &mut count,
        );
        accepted(number)?;
        self.granules.truncate(count as usize);
        self.places.truncate(count as usize);
        self.sequences.truncate(count as usize);
        Ok(())
    }

    /// Searches for the record from which a reader that is to play the target, in samples, is fed:
    /// the last one whose granule position is at or before the target less 3,840, the 80 ms that a
    /// decoder needs to settle (RFC 7845, 4.6).
    ///
    /// Refuses by [`Refusal::FallingGranule`] an index with a granule position below the one before
    /// it, and tells the first such place.
    ///
    /// ```
    /// use embulgri::records::{Index, Record, Refused, Sought};
    /// use embulgri::refusal::Refusal;
    ///
    /// let mut index = Index::with_room(2).expect("memory");
    /// index.set(0, Record { granule: 5_000, place: 91, sequence: 2 });
    /// index.set(1, Record { granule: 6_000, place: 122, sequence: 3 });
    /// assert!(matches!(index.seek(9_839), Ok(Sought::Record { number: 0, .. })));
    /// assert!(matches!(index.seek(9_840), Ok(Sought::Record { number: 1, .. })));
    /// assert!(matches!(index.seek(8_839), Ok(Sought::Begin { .. })));
    ///
    /// index.set(1, Record { granule: 4_999, place: 122, sequence: 3 });
    /// let (why, place) = (Refusal::FallingGranule, 1);
    /// assert_eq!(index.seek(9_840), Err(Refused { why, place }));
    /// ```
    pub fn seek(&self, target: u64) -> Result<Sought, Refused> {
        let (mut out, mut place) = ([0; 3], 0);
        let number = ffi::index_seek(
            &self.granules,
            &self.places,
            &self.sequences,
            target,
            &mut out,
            &mut place,
        );
        accepted(number).map_err(|why| Refused { why, place })?;
        let [found, record, probes] = out;
        Ok(match found {
            0 => Sought::Begin { probes },
            _ => Sought::Record {
                number: record as usize,
                probes,
            },
        })
    }
}

/// A list of so many zeros, in no more memory than these take; none where there is not so much.
fn zeros<T: Clone + Default>(n: usize) -> Option<Vec<T>> {
    let mut list = Vec::new();
    list.try_reserve_exact(n).ok()?;
    list.resize(n, T::default());
    Some(list)
}
