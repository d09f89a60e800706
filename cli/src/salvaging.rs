//! Salvage of a stream from damaged bytes.
//!
//! ```
//! use embulgri::pages::judge;
//! use embulgri::salvaging::Salvage;
//!
//! let mut damaged = std::fs::read("../examples/drip.opus")?;
//! damaged.drain(5_000..5_100);
//! assert!(judge(&damaged).is_err());
//!
//! let mut salvage = Salvage::of(damaged.len()).expect("memory");
//! assert_eq!(salvage.run(&damaged), Ok(()));
//! assert!(judge(salvage.stream()).is_ok());
//! let skipped = salvage.change(0);
//! assert_eq!((skipped.what, skipped.place, skipped.bytes), (0, 3_281, 2_400));
//! # Ok::<(), std::io::Error>(())
//! ```

use crate::ffi::{self, Reserved};
use crate::refusal::{accepted, Refusal};

/// What salvage skipped or changed.
#[derive(Clone, Copy, Debug, PartialEq, Eq)]
pub struct Change {
    /// What it was:
    /// - 0, skip: the bytes from this place on are in no page that was kept
    /// - 1, number: the page that starts at this place has another number
    /// - 2, mark: it is no longer marked continued
    /// - 3, cut: a piece of a packet was removed from it
    pub what: u64,
    /// A place of the input.
    pub place: u64,
    /// How many bytes were skipped, changed or removed.
    pub bytes: u64,
}

/// The memory that salvage is lent: room that always suffices, touched where it is written.
pub struct Salvage {
    work: Reserved<u64>,
    out: Reserved<u8>,
    what: Reserved<u64>,
    places: Reserved<u64>,
    sizes: Reserved<u64>,
    counts: [u64; 2],
}

impl Salvage {
    /// For inputs of at most n bytes; nothing where there is not so much memory.
    ///
    /// ```
    /// use embulgri::refusal::Refusal;
    /// use embulgri::salvaging::Salvage;
    ///
    /// let mut salvage = Salvage::of(100).expect("memory");
    /// assert_eq!(salvage.run(&[0; 100]), Err(Refusal::HeadersIncomplete));
    /// assert_eq!(salvage.run(&[0; 1_000]), Err(Refusal::ShortRoom));
    /// ```
    pub fn of(n: usize) -> Option<Salvage> {
        let lines = n / 7 + 1;
        Some(Salvage {
            work: Reserved::of(n / 27)?,
            out: Reserved::for_writing(n)?,
            what: Reserved::of(lines)?,
            places: Reserved::of(lines)?,
            sizes: Reserved::of(lines)?,
            counts: [0; 2],
        })
    }

    /// Salvages a stream from damaged bytes: what is left of it is whole. A whole stream comes out
    /// as it is.
    ///
    /// Refuses by [`Refusal::HeadersIncomplete`] an input without a page that is marked first, and
    /// one of which no whole header is left; and by [`Refusal::ShortRoom`] or
    /// [`Refusal::ShortOutput`] one with more bytes than this is for. What was salvaged before
    /// stays then.
    ///
    /// ```
    /// use embulgri::salvaging::{Change, Salvage};
    ///
    /// let stream = std::fs::read("../examples/drip.opus")?;
    /// let damaged = [b"x", &stream[..]].concat();
    /// let mut salvage = Salvage::of(damaged.len()).expect("memory");
    /// assert_eq!(salvage.run(&damaged), Ok(()));
    /// assert_eq!(salvage.stream(), stream);
    /// assert_eq!(salvage.changes(), 1);
    /// assert_eq!(salvage.change(0), Change { what: 0, place: 0, bytes: 1 });
    /// # Ok::<(), std::io::Error>(())
    /// ```
    pub fn run(&mut self, input: &[u8]) -> Result<(), Refusal> {
        let (work, out) = (self.work.all_mut(), self.out.all_mut());
        let (what, places) = (self.what.all_mut(), self.places.all_mut());
        let sizes = self.sizes.all_mut();
        let number = ffi::salvage(input, work, out, what, places, sizes, &mut self.counts);
        accepted(number)
    }

    /// The stream that was salvaged. An example is at [`Salvage::run`].
    pub fn stream(&self) -> &[u8] {
        &self.out.all()[..self.counts[0] as usize]
    }

    /// How many changes there are. An example is at [`Salvage::run`].
    pub fn changes(&self) -> usize {
        self.counts[1] as usize
    }

    /// The change with this number, the first being 0, in the order of the input's bytes. Only
    /// numbers below [`Salvage::changes`] have one. An example is at [`Salvage::run`].
    pub fn change(&self, i: usize) -> Change {
        Change {
            what: self.what.all()[i],
            place: self.places.all()[i],
            bytes: self.sizes.all()[i],
        }
    }
}
