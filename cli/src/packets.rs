//! Audio packets (RFC 6716, 3), read alone.
//!
//! ```
//! use embulgri::pages::Page;
//! use embulgri::packets::Measure;
//!
//! let stream = std::fs::read("../examples/drip.opus")?;
//! let page = Page::read(&stream[841..3_281]).expect("the first audio page");
//! let first = &page.body[..page.lacing[0].into()];
//! assert_eq!(Measure::read(first, 1).map(|measure| measure.length), Ok(960));
//! # Ok::<(), std::io::Error>(())
//! ```

use crate::ffi::pages as ffi;
use crate::refusal::{accepted, Refusal};

/// What is told of an audio packet. It has an Opus packet for each stream, all of one length.
#[derive(Clone, Copy, Debug, PartialEq, Eq)]
pub struct Measure {
    /// Its length in samples.
    pub length: u64,
    /// The number of frames of its first Opus packet.
    pub frames: u64,
    /// Whether its first Opus packet is marked stereo.
    pub stereo: bool,
    /// Whether its first Opus packet is silent: no frame has a byte. Padding does not count.
    pub silent: bool,
}

impl Measure {
    /// Reads an audio packet of so many streams.
    ///
    /// Refuses by [`Refusal::BadMapping`] no streams, by [`Refusal::IllegalPacket`] a packet that
    /// is empty or has an illegal Opus packet (RFC 6716, 3.4), and by [`Refusal::MixedLengths`]
    /// Opus packets that differ in length.
    ///
    /// ```
    /// use embulgri::packets::Measure;
    /// use embulgri::refusal::Refusal;
    ///
    /// let two = Measure { length: 960, frames: 2, stereo: false, silent: false };
    /// assert_eq!(Measure::read(&[0x01, 0xaa, 0xbb], 1), Ok(two));
    /// let empty = Measure { length: 960, frames: 1, stereo: true, silent: true };
    /// assert_eq!(Measure::read(&[0xfc], 1), Ok(empty));
    ///
    /// assert_eq!(Measure::read(&[0xfc], 0), Err(Refusal::BadMapping));
    /// assert_eq!(Measure::read(&[], 1), Err(Refusal::IllegalPacket));
    /// assert_eq!(Measure::read(&[0x01, 0xaa], 1), Err(Refusal::IllegalPacket));
    /// assert_eq!(Measure::read(&[0xfc, 0, 0], 2), Err(Refusal::MixedLengths));
    /// ```
    pub fn read(packet: &[u8], streams: u8) -> Result<Measure, Refusal> {
        let mut out = [0; 4];
        accepted(ffi::packet_read(packet, streams.into(), &mut out))?;
        let [length, frames, stereo, silent] = out;
        Ok(Measure {
            length,
            frames,
            stereo: stereo == 1,
            silent: silent == 1,
        })
    }
}
