//! The old clock, for whoever holds logs of the old reader (docs/OLD_CLOCK.md).
//!
//! ```
//! use embulgri::clock::Clock;
//!
//! let mut clock = Clock::start();
//! while f64::from(clock.reading) == clock.count as f64 {
//!     clock.add(120).expect("a packet's length");
//! }
//! assert_eq!((clock.reading, clock.count), (134_217_952.0, 134_217_960));
//! ```

use crate::ffi;
use crate::refusal::{accepted, Refusal};

/// Adds up the lengths of packets, in samples. Any reading and any count may be gone on from.
#[derive(Clone, Copy, Debug, PartialEq)]
pub struct Clock {
    /// The sum as the old reader logged it: each addition is rounded to the nearest float, and at a
    /// tie to the even one.
    pub reading: f32,
    /// The exact sum.
    pub count: u64,
}

impl Clock {
    /// A clock at 0. It refuses nothing.
    ///
    /// ```
    /// use embulgri::clock::Clock;
    ///
    /// assert_eq!(Clock::start(), Clock { reading: 0.0, count: 0 });
    /// ```
    pub fn start() -> Clock {
        Clock {
            reading: 0.0,
            count: 0,
        }
    }

    /// Adds the length of a packet.
    ///
    /// Refuses by [`Refusal::ClockRange`] a length that is not a multiple of 120 from 120 to 5,760,
    /// and one by which the count would pass 2^63 - 1. The clock stays as it was then.
    ///
    /// ```
    /// use embulgri::clock::Clock;
    /// use embulgri::refusal::Refusal;
    ///
    /// let mut clock = Clock { reading: 134_217_840.0, count: 134_217_840 };
    /// assert_eq!(clock.add(121), Err(Refusal::ClockRange));
    /// assert_eq!(clock.add(120), Ok(()));
    /// assert_eq!((clock.reading, clock.count), (134_217_952.0, 134_217_960));
    /// ```
    pub fn add(&mut self, length: u64) -> Result<(), Refusal> {
        accepted(ffi::clock_add(&mut self.reading, &mut self.count, length))
    }
}
