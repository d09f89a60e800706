//! A stream checked for what its writer was advised against.
//!
//! ```
//! use embulgri::checking::Check;
//!
//! let stream = std::fs::read("../examples/drip.opus")?;
//! let mut check = Check::of(stream.len()).expect("memory");
//! assert_eq!(check.run(&stream), Ok(()));
//! assert_eq!(check.count(), 0);
//!
//! assert_eq!(check.run(&stream[..8_330]), Ok(()), "the first five pages");
//! assert_eq!((check.finding(0).kind, check.finding(0).page), (2, 4), "no end mark");
//! # Ok::<(), std::io::Error>(())
//! ```

use crate::ffi::{self, Reserved};
use crate::refusal::{accepted, Refusal};

/// Something that a writer was advised against.
#[derive(Clone, Copy, Debug, PartialEq, Eq)]
pub struct Finding {
    /// Its kind:
    /// - 1: the last packet is left unfinished
    /// - 2: no page is marked last
    /// - 3: more samples are trimmed than the last packet has
    /// - 4: the comment header has a REPLAYGAIN tag
    /// - 5: a hole lies before the packets of the page
    pub kind: u64,
    /// Its page, the first of the stream being 0.
    pub page: u64,
}

/// The memory that a check is lent: room that always suffices, touched where it is written.
pub struct Check {
    kinds: Reserved<u64>,
    pages: Reserved<u64>,
    count: u64,
}

impl Check {
    /// For streams of at most n bytes; nothing where there is not so much memory. A page has at
    /// least 27 bytes, and there are at most four findings more than pages.
    ///
    /// ```
    /// use embulgri::checking::Check;
    ///
    /// let check = Check::of(100).expect("memory");
    /// assert_eq!(check.count(), 0, "nothing was checked yet");
    /// ```
    pub fn of(n: usize) -> Option<Check> {
        let findings = n / 27 + 5;
        Some(Check {
            kinds: Reserved::of(findings)?,
            pages: Reserved::of(findings)?,
            count: 0,
        })
    }

    /// Checks a whole stream.
    ///
    /// Refuses a stream that is not whole by the refusal of [`judge`](crate::pages::judge), and by
    /// [`Refusal::ShortOutput`] one with more findings than this has room for. What was found
    /// before stays then.
    ///
    /// ```
    /// use embulgri::checking::{Check, Finding};
    /// use embulgri::refusal::Refusal;
    ///
    /// let stream = std::fs::read("../examples/drip.opus")?;
    /// let mut check = Check::of(stream.len()).expect("memory");
    /// assert_eq!(check.run(&stream[..841]), Ok(()), "the headers alone");
    /// assert_eq!(check.count(), 1);
    /// assert_eq!(check.finding(0), Finding { kind: 2, page: 1 });
    /// assert_eq!(check.run(&stream[..838]), Err(Refusal::NotOnePage));
    /// # Ok::<(), std::io::Error>(())
    /// ```
    pub fn run(&mut self, stream: &[u8]) -> Result<(), Refusal> {
        let (kinds, pages) = (self.kinds.all_mut(), self.pages.all_mut());
        let number = ffi::check(stream, kinds, pages, &mut self.count);
        accepted(number)
    }

    /// How many findings there are. An example is at [`Check::run`].
    pub fn count(&self) -> usize {
        self.count as usize
    }

    /// The finding with this number, the first being 0, in the order of pages and on one page of
    /// kinds. Only numbers below [`Check::count`] have one. An example is at [`Check::run`].
    pub fn finding(&self, i: usize) -> Finding {
        Finding {
            kind: self.kinds.all()[i],
            page: self.pages.all()[i],
        }
    }
}
