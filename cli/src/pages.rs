//! Ogg pages (RFC 3533): read, written, found in a buffer, and a whole stream judged.
//!
//! ```
//! use embulgri::pages::{page_end, Page};
//!
//! let stream = std::fs::read("../examples/drip.opus")?;
//! let (mut rest, mut last) = (&stream[..], 0);
//! while let Some(end) = page_end(rest) {
//!     let page = Page::read(&rest[..end]).expect("a page that is whole and right");
//!     (rest, last) = (&rest[end..], page.granule);
//! }
//! assert_eq!((rest.len(), last), (0, 288_312));
//! # Ok::<(), std::io::Error>(())
//! ```

use crate::ffi::pages as ffi;
use crate::refusal::{accepted, Refusal};
use std::error::Error;
use std::fmt;

/// Where the lacing values of a page start; the body follows them.
const LACING: usize = 27;

/// One page.
#[derive(Clone, Copy, Debug, PartialEq, Eq)]
pub struct Page<'a> {
    /// The marks, added: 1 continued, 2 first, 4 last. One that is read can have any other bit too.
    pub flags: u8,
    /// The granule position.
    pub granule: u64,
    /// The serial of the stream.
    pub serial: u32,
    /// The sequence number.
    pub sequence: u32,
    /// The lacing values, at most 255.
    pub lacing: &'a [u8],
    /// The body, as long as the lacing values sum to.
    pub body: &'a [u8],
}

impl<'a> Page<'a> {
    /// Reads one page, which is all of the bytes.
    ///
    /// Refuses by [`Refusal::NotOnePage`] bytes that are not exactly one whole page of version 0,
    /// and by [`Refusal::WrongChecksum`] a page with another checksum.
    ///
    /// ```
    /// use embulgri::pages::Page;
    /// use embulgri::refusal::Refusal;
    ///
    /// let mut stream = std::fs::read("../examples/drip.opus")?;
    /// let page = Page::read(&stream[..47]).expect("the first page");
    /// assert_eq!((page.flags, page.granule, page.serial, page.sequence), (2, 0, 1, 0));
    /// assert_eq!(page.lacing, [19]);
    /// assert!(page.body.starts_with(b"OpusHead"));
    ///
    /// assert_eq!(Page::read(&stream[..46]), Err(Refusal::NotOnePage));
    /// stream[46] ^= 1;
    /// assert_eq!(Page::read(&stream[..47]), Err(Refusal::WrongChecksum));
    /// # Ok::<(), std::io::Error>(())
    /// ```
    pub fn read(bytes: &'a [u8]) -> Result<Page<'a>, Refusal> {
        let mut fields = [0; 6];
        accepted(ffi::page_read(bytes, &mut fields))?;
        let [flags, granule, serial, sequence, lacing_n, body_n] = fields;
        let (lacing, body) = bytes[LACING..].split_at(lacing_n as usize);
        Ok(Page {
            flags: flags as u8,
            granule,
            serial: serial as u32,
            sequence: sequence as u32,
            lacing,
            body: &body[..body_n as usize],
        })
    }

    /// Writes the page, with its checksum, to the start of `out`, and gives its length. What lies
    /// past it stays as it was.
    ///
    /// Refuses by [`Refusal::UnfitFields`] more than 255 lacing values, a body that is not as long
    /// as they sum to, and flags above 7, and by [`Refusal::ShortOutput`] an `out` that is shorter
    /// than the page. Nothing is written then.
    ///
    /// ```
    /// use embulgri::pages::Page;
    /// use embulgri::refusal::Refusal;
    ///
    /// let page = Page {
    ///     flags: 4,
    ///     granule: 960,
    ///     serial: 7,
    ///     sequence: 2,
    ///     lacing: &[1],
    ///     body: &[0xfc],
    /// };
    /// let mut out = [0; 40];
    /// assert_eq!(page.write(&mut out), Ok(29));
    /// assert_eq!(Page::read(&out[..29]), Ok(page));
    ///
    /// assert_eq!(page.write(&mut out[..28]), Err(Refusal::ShortOutput));
    /// let unfit = Page { flags: 8, ..page };
    /// assert_eq!(unfit.write(&mut out), Err(Refusal::UnfitFields));
    /// ```
    pub fn write(&self, out: &mut [u8]) -> Result<usize, Refusal> {
        let mut written = 0;
        let number = ffi::page_write(
            self.flags.into(),
            self.granule,
            self.serial,
            self.sequence,
            self.lacing,
            self.body,
            out,
            &mut written,
        );
        accepted(number).map(|()| written as usize)
    }
}

/// The checksum of bytes: polynomial 0x04c11db7, high bit first, start 0, no final change. That of
/// a page takes the page's own field as zeros; [`Page::read`] and [`Page::write`] see to that.
///
/// It refuses nothing.
///
/// ```
/// use embulgri::pages::checksum;
///
/// assert_eq!(checksum(&[1]), 0x04c1_1db7);
/// assert_eq!(checksum(&[]), 0);
/// ```
pub fn checksum(bytes: &[u8]) -> u32 {
    ffi::checksum(bytes)
}

/// The place after the page that the bytes begin with; none where it is not whole in them. 27 bytes
/// or more that begin no page are taken to their end, for [`Page::read`] to refuse.
///
/// It refuses nothing.
///
/// ```
/// use embulgri::pages::page_end;
///
/// let stream = std::fs::read("../examples/drip.opus")?;
/// assert_eq!(page_end(&stream), Some(47));
/// assert_eq!(page_end(&stream[..46]), None);
/// assert_eq!(page_end(&[b'x'; 100]), Some(100));
/// # Ok::<(), std::io::Error>(())
/// ```
pub fn page_end(bytes: &[u8]) -> Option<usize> {
    let end = ffi::page_end(bytes, 0);
    (end != 0).then_some(end as usize)
}

/// The first place at or after `from` at which a page starts that [`Page::read`] would read; none
/// where there is none. So the pages of damaged bytes are found.
///
/// It refuses nothing.
///
/// ```
/// use embulgri::pages::next_page;
///
/// let mut damaged = std::fs::read("../examples/drip.opus")?;
/// damaged[40] ^= 1;
/// assert_eq!(next_page(&damaged, 0), Some(47), "the first page has a wrong checksum");
/// assert_eq!(next_page(&damaged, 47), Some(47));
/// assert_eq!(next_page(&damaged, damaged.len() - 26), None);
/// # Ok::<(), std::io::Error>(())
/// ```
pub fn next_page(bytes: &[u8], from: usize) -> Option<usize> {
    let place = ffi::next_page(bytes, from as u64) as usize;
    (place < bytes.len()).then_some(place)
}

/// Why a stream is not whole.
#[derive(Clone, Copy, Debug, PartialEq, Eq)]
pub struct Refused {
    /// The refusal.
    pub why: Refusal,
    /// The page that is refused, the first being 0; none where the stream ends before its comment
    /// header is complete.
    pub page: Option<u64>,
}

impl fmt::Display for Refused {
    fn fmt(&self, f: &mut fmt::Formatter) -> fmt::Result {
        match self.page {
            Some(page) => write!(f, "page {page} is {}", self.why),
            None => write!(f, "the stream is {}", self.why),
        }
    }
}

impl Error for Refused {}

/// Judges the stream that the bytes are: nothing where it is whole, so that a reader that is fed
/// all its pages refuses none, and both headers are complete.
///
/// Refuses by the refusal of the first page that a reader refuses, or else by
/// [`Refusal::HeadersIncomplete`].
///
/// ```
/// use embulgri::pages::{judge, Refused};
/// use embulgri::refusal::Refusal;
///
/// let stream = std::fs::read("../examples/drip.opus")?;
/// assert_eq!(judge(&stream), Ok(()));
///
/// let (why, page) = (Refusal::NotOnePage, Some(8));
/// assert_eq!(judge(&stream[..stream.len() - 1]), Err(Refused { why, page }));
/// let (why, page) = (Refusal::HeadersIncomplete, None);
/// assert_eq!(judge(&stream[..47]), Err(Refused { why, page }));
/// # Ok::<(), std::io::Error>(())
/// ```
pub fn judge(stream: &[u8]) -> Result<(), Refused> {
    let mut page = 0;
    let number = ffi::judge(stream, &mut page);
    accepted(number).map_err(|why| Refused {
        why,
        page: (why != Refusal::HeadersIncomplete).then_some(page),
    })
}
