//! The identification header (RFC 7845, 5.1; RFC 8486, 3).
//!
//! ```
//! use embulgri::head::Head;
//! use embulgri::pages::Page;
//!
//! let stream = std::fs::read("../examples/drip.opus")?;
//! let page = Page::read(&stream[..47]).expect("the first page");
//! let head = Head::read(page.body).expect("an identification header");
//! assert_eq!((head.channels, head.pre_skip, head.input_rate), (1, 312, 48_000));
//! # Ok::<(), std::io::Error>(())
//! ```

use crate::ffi::headers as ffi;
use crate::refusal::{accepted, Refusal};

/// The fields of an identification header, but for the matrix of family 3.
#[derive(Clone, Debug, PartialEq, Eq)]
pub struct Head {
    /// The version: 1 where it is written.
    pub version: u8,
    /// The number of channels.
    pub channels: u8,
    /// The samples to skip at the start.
    pub pre_skip: u16,
    /// The sample rate of the input that was encoded, in Hz.
    pub input_rate: u32,
    /// The output gain, in 256ths of a decibel.
    pub output_gain: i16,
    /// The channel mapping family.
    pub family: u8,
    /// The stream count; 1 in family 0.
    pub streams: u8,
    /// The coupled count; in family 0 one less than the channels.
    pub coupled: u8,
    /// The index of each channel, then zeros; zeros alone in family 3.
    pub mapping: [u8; 255],
}

impl Head {
    /// Reads an identification header, which is all of the packet.
    ///
    /// Refuses by [`Refusal::BadHead`] a wrong signature, a version above 15, and a packet that is
    /// too short, has more than 61,440 bytes of fields, or in version 0 or 1 more bytes than its
    /// fields; and by [`Refusal::BadMapping`] a wrong channel mapping.
    ///
    /// ```
    /// use embulgri::head::Head;
    /// use embulgri::refusal::Refusal;
    ///
    /// let mut packet = *b"OpusHead\x01\x02\x38\x01\x80\xbb\0\0\0\0\0";
    /// let head = Head::read(&packet)?;
    /// assert_eq!((head.version, head.channels, head.pre_skip), (1, 2, 312));
    /// assert_eq!((head.input_rate, head.output_gain, head.family), (48_000, 0, 0));
    /// assert_eq!((head.streams, head.coupled, &head.mapping[..2]), (1, 1, &[0, 1][..]));
    ///
    /// assert_eq!(Head::read(&packet[..18]), Err(Refusal::BadHead));
    /// packet[9] = 3;
    /// assert_eq!(Head::read(&packet), Err(Refusal::BadMapping), "three channels in family 0");
    /// # Ok::<(), Refusal>(())
    /// ```
    pub fn read(packet: &[u8]) -> Result<Head, Refusal> {
        let (mut fields, mut mapping) = ([0; 8], [0; 255]);
        accepted(ffi::head_read(packet, &mut fields, &mut mapping))?;
        let [version, channels, pre_skip, input_rate, gain, family, streams, coupled] = fields;
        Ok(Head {
            version: version as u8,
            channels: channels as u8,
            pre_skip: pre_skip as u16,
            input_rate: input_rate as u32,
            output_gain: gain as i16,
            family: family as u8,
            streams: streams as u8,
            coupled: coupled as u8,
            mapping,
        })
    }

    /// Writes the header, with the bytes of its matrix, which only family 3 has, to the start of
    /// `out`, and gives its length. What lies past it stays as it was.
    ///
    /// Refuses by [`Refusal::UnfitFields`] a version that is not 1, fields that [`Head::read`] does
    /// not give, a matrix of another length than the fields ask for, and more than 61,440 bytes;
    /// and by [`Refusal::ShortOutput`] an `out` that is shorter than the header. Nothing is written
    /// then.
    ///
    /// ```
    /// use embulgri::head::Head;
    /// use embulgri::refusal::Refusal;
    ///
    /// let head = Head::read(b"OpusHead\x01\x01\x38\x01\x80\xbb\0\0\0\0\0")?;
    /// let louder = Head { output_gain: 256, ..head };
    /// let mut out = [0; 40];
    /// assert_eq!(louder.write(&[], &mut out), Ok(19));
    /// assert_eq!(Head::read(&out[..19]), Ok(louder.clone()));
    ///
    /// assert_eq!(louder.write(&[], &mut out[..18]), Err(Refusal::ShortOutput));
    /// let unfit = Head { channels: 2, ..louder };
    /// assert_eq!(unfit.write(&[], &mut out), Err(Refusal::UnfitFields), "the coupled count is 0");
    /// # Ok::<(), Refusal>(())
    /// ```
    pub fn write(&self, matrix: &[u8], out: &mut [u8]) -> Result<usize, Refusal> {
        let mut written = 0;
        let number = ffi::head_write(&self.fields(), &self.mapping, matrix, out, &mut written);
        accepted(number).map(|()| written as usize)
    }

    /// All but the mapping, as the library takes them.
    pub(crate) fn fields(&self) -> [u64; 8] {
        [
            self.version.into(),
            self.channels.into(),
            self.pre_skip.into(),
            self.input_rate.into(),
            (self.output_gain as u16).into(),
            self.family.into(),
            self.streams.into(),
            self.coupled.into(),
        ]
    }
}

/// The bytes of the matrix of an identification header of family 3; none in any other family.
///
/// Refuses the packets that [`Head::read`] refuses, by the same refusals.
///
/// ```
/// use embulgri::head::{matrix_of, Head};
/// use embulgri::refusal::Refusal;
///
/// let mono = Head::read(b"OpusHead\x01\x01\x38\x01\x80\xbb\0\0\0\0\0")?;
/// let head = Head { family: 3, ..mono };
/// let mut out = [0; 40];
/// let n = head.write(&[0xff, 0x7f], &mut out)?;
/// assert_eq!(matrix_of(&out[..n]), Ok(&[0xff, 0x7f][..]));
/// assert_eq!(matrix_of(b"OpusHead\x01\x01\x38\x01\x80\xbb\0\0\0\0\0"), Ok(&[][..]));
/// assert_eq!(matrix_of(&out[..n - 1]), Err(Refusal::BadHead));
/// # Ok::<(), Refusal>(())
/// ```
pub fn matrix_of(packet: &[u8]) -> Result<&[u8], Refusal> {
    let mut part = [0; 2];
    accepted(ffi::head_matrix(packet, &mut part))?;
    let [start, length] = part.map(|number| number as usize);
    Ok(&packet[start..start + length])
}

/// An entry of the matrix of an identification header of family 3, by its number, the first being
/// 0, in the order in which they are stored. Each call checks the whole packet.
///
/// Refuses the packets that [`Head::read`] refuses, by the same refusals, and by
/// [`Refusal::NoSuchPart`] the number of an entry that the matrix does not have; where there is no
/// matrix, it has none.
///
/// ```
/// use embulgri::head::{matrix_entry, Head};
/// use embulgri::refusal::Refusal;
///
/// let mono = Head::read(b"OpusHead\x01\x01\x38\x01\x80\xbb\0\0\0\0\0")?;
/// let head = Head { family: 3, ..mono };
/// let mut out = [0; 40];
/// let n = head.write(&[0xfe, 0xff], &mut out)?;
/// assert_eq!(matrix_entry(&out[..n], 0), Ok(-2));
/// assert_eq!(matrix_entry(&out[..n], 1), Err(Refusal::NoSuchPart));
/// # Ok::<(), Refusal>(())
/// ```
pub fn matrix_entry(packet: &[u8], number: usize) -> Result<i16, Refusal> {
    let mut value = 0;
    accepted(ffi::head_matrix_entry(packet, number as u64, &mut value))?;
    Ok(value as i16)
}
