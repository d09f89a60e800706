//! The comment header (RFC 7845, 5.2): its vendor, its comments, and the gains in them.
//!
//! ```
//! use embulgri::comments::Comments;
//! use embulgri::pages::Page;
//!
//! let stream = std::fs::read("../examples/drip.opus")?;
//! let page = Page::read(&stream[47..841]).expect("the page of the comment header");
//! let comments = Comments::read(page.body).expect("a comment header");
//! assert_eq!(comments.vendor(), "libopus 1.3.1, libopusenc 0.2.1");
//! assert_eq!(comments.iter().nth(2), Some("title=Drips"));
//! # Ok::<(), std::io::Error>(())
//! ```

use crate::ffi::headers as ffi;
use crate::refusal::{accepted, Refusal};
use std::str;

/// The packet of a comment header that was read.
#[derive(Clone, Copy, Debug, PartialEq, Eq)]
pub struct Comments<'a> {
    packet: &'a [u8],
    count: usize,
}

impl<'a> Comments<'a> {
    /// Reads a comment header. Bytes after the last comment are not looked at.
    ///
    /// Refuses by [`Refusal::BadTags`] a wrong signature, a length, count or text that passes the
    /// end of the packet, a text that is no UTF-8, a name with a byte outside 0x20 to 0x7D, and two
    /// comments named R128_TRACK_GAIN or two named R128_ALBUM_GAIN, in capitals or not.
    ///
    /// ```
    /// use embulgri::comments::Comments;
    /// use embulgri::refusal::Refusal;
    ///
    /// let packet = b"OpusTags\x01\0\0\0v\x02\0\0\0\x03\0\0\0a=1\x03\0\0\0b=2";
    /// let comments = Comments::read(packet)?;
    /// assert_eq!((comments.vendor(), comments.count()), ("v", 2));
    /// assert_eq!(Comments::read(&packet[..30]), Err(Refusal::BadTags));
    /// # Ok::<(), Refusal>(())
    /// ```
    pub fn read(packet: &'a [u8]) -> Result<Comments<'a>, Refusal> {
        let mut count = 0;
        accepted(ffi::tags_read(packet, &mut count))?;
        Ok(Comments {
            packet,
            count: count as usize,
        })
    }

    /// The vendor: the name of what encoded the stream. An example is at [`Comments::read`].
    pub fn vendor(&self) -> &'a str {
        let mut part = [0; 2];
        accepted(ffi::tags_vendor(self.packet, &mut part)).expect("a packet that was read");
        self.text(part)
    }

    /// How many comments there are. An example is at [`Comments::read`].
    pub fn count(&self) -> usize {
        self.count
    }

    /// The comment with this number, the first being 0. Each call checks the whole packet.
    ///
    /// Refuses by [`Refusal::NoSuchPart`] a number that is not below the count.
    ///
    /// ```
    /// use embulgri::comments::Comments;
    /// use embulgri::refusal::Refusal;
    ///
    /// let packet = b"OpusTags\x01\0\0\0v\x02\0\0\0\x03\0\0\0a=1\x03\0\0\0b=2";
    /// let comments = Comments::read(packet)?;
    /// assert_eq!(comments.comment(1), Ok("b=2"));
    /// assert_eq!(comments.comment(2), Err(Refusal::NoSuchPart));
    /// # Ok::<(), Refusal>(())
    /// ```
    pub fn comment(&self, number: usize) -> Result<&'a str, Refusal> {
        let mut part = [0; 2];
        accepted(ffi::tags_comment(self.packet, number as u64, &mut part))?;
        Ok(self.text(part))
    }

    /// All comments, in their order. Each is asked for by its number.
    ///
    /// It refuses nothing.
    ///
    /// ```
    /// use embulgri::comments::Comments;
    ///
    /// let packet = b"OpusTags\x01\0\0\0v\x02\0\0\0\x03\0\0\0a=1\x03\0\0\0b=2";
    /// let comments = Comments::read(packet)?;
    /// assert!(comments.iter().eq(["a=1", "b=2"]));
    /// # Ok::<(), embulgri::refusal::Refusal>(())
    /// ```
    pub fn iter(&self) -> impl Iterator<Item = &'a str> + use<'a> {
        let comments = *self;
        (0..self.count).map(move |number| {
            let comment = comments.comment(number);
            comment.expect("a number below the count")
        })
    }

    /// The gain in the comment with this number, the first being 0, in 256ths of a decibel: the
    /// number after its first "=", whatever its name.
    ///
    /// Refuses by [`Refusal::NoSuchPart`] a number that is not below the count, and by
    /// [`Refusal::BadGain`] a comment without "=", and one in which what follows it is not an
    /// optional sign and digits, has more than 6 characters, or is not from -32,768 to 32,767.
    ///
    /// ```
    /// use embulgri::comments::{write, Comments};
    /// use embulgri::refusal::Refusal;
    ///
    /// let mut out = [0; 60];
    /// let n = write("v", &["R128_TRACK_GAIN=-573", "b=x"], &mut out)?;
    /// let comments = Comments::read(&out[..n])?;
    /// assert_eq!(comments.gain(0), Ok(-573));
    /// assert_eq!(comments.gain(1), Err(Refusal::BadGain));
    /// assert_eq!(comments.gain(2), Err(Refusal::NoSuchPart));
    /// # Ok::<(), Refusal>(())
    /// ```
    pub fn gain(&self, number: usize) -> Result<i16, Refusal> {
        let mut gain = 0;
        accepted(ffi::tags_gain(self.packet, number as u64, &mut gain))?;
        Ok(gain as i16)
    }

    /// The text that starts there in the packet and has so many bytes, which the library promises
    /// to be UTF-8.
    fn text(&self, part: [u64; 2]) -> &'a str {
        let [start, length] = part.map(|number| number as usize);
        let text = &self.packet[start..start + length];
        str::from_utf8(text).expect("a text of a packet that was read")
    }
}

/// Writes a comment header with this vendor and these comments to the start of `out`, and gives its
/// length. What lies past it stays as it was.
///
/// Refuses by [`Refusal::UnfitFields`] a header that would have more than 61,440 bytes or that
/// [`Comments::read`] would refuse, and by [`Refusal::ShortOutput`] an `out` that is shorter than
/// the header. Nothing is written then.
///
/// ```
/// use embulgri::comments::{write, Comments};
/// use embulgri::refusal::Refusal;
///
/// let mut out = [0; 40];
/// assert_eq!(write("v", &["a=1", "b=2"], &mut out), Ok(31));
/// assert!(Comments::read(&out[..31])?.iter().eq(["a=1", "b=2"]));
///
/// assert_eq!(write("v", &["a=1", "b=2"], &mut out[..30]), Err(Refusal::ShortOutput));
/// assert_eq!(write("v", &["~=1"], &mut out), Err(Refusal::UnfitFields), "no name has a \"~\"");
/// # Ok::<(), Refusal>(())
/// ```
pub fn write(vendor: &str, comments: &[&str], out: &mut [u8]) -> Result<usize, Refusal> {
    let text = comments.concat();
    let lengths: Vec<u64> = comments
        .iter()
        .map(|comment| comment.len() as u64)
        .collect();
    let mut written = 0;
    let number = ffi::tags_write(
        vendor.as_bytes(),
        text.as_bytes(),
        &lengths,
        out,
        &mut written,
    );
    accepted(number).map(|()| written as usize)
}
