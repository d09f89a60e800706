//! A stream cropped at a page.
//!
//! ```
//! use embulgri::cropping::{start_of, Crop};
//! use embulgri::refusal::Refusal;
//!
//! let stream = std::fs::read("../examples/drip.opus")?;
//! let start = start_of(&stream, u64::MAX, 200_000).expect("a page that is early enough");
//! assert_eq!((start.page, start.position), (6, 192_000));
//!
//! let mut crop = Crop::of(stream.len()).expect("memory");
//! assert_eq!(crop.run(&stream, start.page), Ok(()));
//! assert!(crop.stream().len() < stream.len());
//! assert_eq!(crop.run(&stream, 0), Err(Refusal::NoCropStart));
//! # Ok::<(), std::io::Error>(())
//! ```

use crate::ffi::{self, Reserved};
use crate::refusal::{accepted, Refusal};

/// Where a crop begins.
#[derive(Clone, Copy, Debug, PartialEq, Eq)]
pub struct Start {
    /// Its page, the first of the stream being 0.
    pub page: u64,
    /// The position, in samples, at which the first packet of that page starts.
    pub position: u64,
}

/// The last page up to `last` at which a crop may begin and whose first packet starts at or before
/// a position, in samples.
///
/// Refuses a stream that is not whole by the refusal of [`judge`](crate::pages::judge), and by
/// [`Refusal::NoCropStart`] a stream without such a page.
///
/// ```
/// use embulgri::cropping::{start_of, Start};
/// use embulgri::refusal::Refusal;
///
/// let stream = std::fs::read("../examples/drip.opus")?;
/// let sixth = Start { page: 6, position: 192_000 };
/// assert_eq!(start_of(&stream, u64::MAX, 200_000), Ok(sixth));
/// assert_eq!(start_of(&stream, 6, u64::MAX), Ok(sixth));
/// assert_eq!(start_of(&stream, 1, u64::MAX), Err(Refusal::NoCropStart));
/// assert_eq!(start_of(&stream[..40], 6, 0), Err(Refusal::NotOnePage));
/// # Ok::<(), std::io::Error>(())
/// ```
pub fn start_of(stream: &[u8], last: u64, position: u64) -> Result<Start, Refusal> {
    let mut start = [0; 2];
    let number = ffi::crop_start(stream, last, position, &mut start);
    let [page, position] = start;
    accepted(number).map(|()| Start { page, position })
}

/// The memory that a crop is lent: room that always suffices, touched where it is written.
pub struct Crop {
    out: Reserved<u8>,
    written: u64,
}

impl Crop {
    /// For streams of at most n bytes; nothing where there is not so much memory.
    ///
    /// ```
    /// use embulgri::cropping::Crop;
    /// use embulgri::refusal::Refusal;
    ///
    /// let stream = std::fs::read("../examples/drip.opus")?;
    /// let mut crop = Crop::of(100).expect("memory");
    /// assert_eq!(crop.run(&stream, 6), Err(Refusal::ShortOutput));
    /// # Ok::<(), std::io::Error>(())
    /// ```
    pub fn of(n: usize) -> Option<Crop> {
        Some(Crop {
            out: Reserved::for_writing(n)?,
            written: 0,
        })
    }

    /// Crops the stream at a page, the first being 0: both headers as they are, and all pages from
    /// that one on, renumbered. Granule positions stay.
    ///
    /// Refuses a stream that is not whole by the refusal of [`judge`](crate::pages::judge); by
    /// [`Refusal::NoCropStart`] a page that is not there, is one of the headers, is marked
    /// continued or last, or completes no packet; and by [`Refusal::ShortOutput`] a crop with more
    /// bytes than this is for. What was cropped before stays then.
    ///
    /// ```
    /// use embulgri::cropping::Crop;
    /// use embulgri::pages::judge;
    /// use embulgri::refusal::Refusal;
    ///
    /// let stream = std::fs::read("../examples/drip.opus")?;
    /// let mut crop = Crop::of(stream.len()).expect("memory");
    /// assert_eq!(crop.run(&stream, 6), Ok(()));
    /// assert_eq!(crop.stream()[..841], stream[..841], "the headers");
    /// assert_eq!(judge(crop.stream()), Ok(()));
    /// assert_eq!(crop.run(&stream, 1), Err(Refusal::NoCropStart));
    /// # Ok::<(), std::io::Error>(())
    /// ```
    pub fn run(&mut self, stream: &[u8], page: u64) -> Result<(), Refusal> {
        let out = self.out.all_mut();
        let number = ffi::crop(stream, page, out, &mut self.written);
        accepted(number)
    }

    /// The stream that is left. An example is at [`Crop::run`].
    pub fn stream(&self) -> &[u8] {
        &self.out.all()[..self.written as usize]
    }
}
