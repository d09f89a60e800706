//! Refusals: why the library does not answer (docs/RULES.md, 2).
//!
//! ```
//! use embulgri::refusal::Refusal;
//!
//! let why = Refusal::of(4).expect("a refusal's number");
//! assert_eq!(why, Refusal::WrongChecksum);
//! assert_eq!((why.number(), why.name()), (4, "WrongChecksum"));
//! assert!(why.to_string().starts_with("refused by 4: the checksum in the page"));
//! assert_eq!(Refusal::of(25), None);
//! ```

use std::error::Error;
use std::fmt;

/// Makes the enum of refusals, each with its number and the words that say when it is given.
macro_rules! refusals {
    ($($name:ident = $number:literal, $meaning:literal;)*) => {
        /// Why the library does not answer. Each has a number of its own, by which the listings and
        /// the C interface name it.
        #[derive(Clone, Copy, Debug, PartialEq, Eq)]
        pub enum Refusal {
            $(#[doc = $meaning] $name = $number,)*
        }

        impl Refusal {
            /// All refusals, in the order of their numbers. An example is at [`Refusal::number`].
            pub const ALL: &'static [Refusal] = &[$(Refusal::$name,)*];

            /// Its name, as in docs/RULES.md. It refuses nothing.
            ///
            /// ```
            /// use embulgri::refusal::Refusal;
            ///
            /// assert_eq!(Refusal::AfterEnd.name(), "AfterEnd");
            /// ```
            pub fn name(self) -> &'static str {
                match self {
                    $(Refusal::$name => stringify!($name),)*
                }
            }

            /// When it is given, in words that stand alone. It refuses nothing.
            ///
            /// ```
            /// use embulgri::refusal::Refusal;
            ///
            /// assert_eq!(Refusal::PacketTooLong.meaning(), "a packet has more than 61,440 bytes");
            /// ```
            pub fn meaning(self) -> &'static str {
                match self {
                    $(Refusal::$name => $meaning,)*
                }
            }
        }
    };
}

refusals! {
    ShortRoom = 1,
        "the carry buffer has less than 61,440 bytes, or one of the four lists fewer than 255 \
         places; or the work list of a salvage has fewer places than a 27th of the input's \
         bytes";
    AfterEnd = 2,
        "something follows a page that is marked last; a chained stream begins like that";
    NotOnePage = 3,
        "the bytes are not exactly one whole page, or its version is not 0; the input may be \
         cut short, or no Ogg";
    WrongChecksum = 4,
        "the checksum in the page is not the page's; its bytes were changed";
    OtherSerial = 5,
        "the serial is not that of the first page; several streams may be mixed or joined";
    OutOfSequence = 6,
        "the sequence number is not 0 on the first page, or later not the one after that of \
         the page before; pages may be missing";
    WrongFlags = 7,
        "a flag above 4 is set, the first page is not marked first or a later one is, or a \
         page of the headers is marked last";
    WrongContinued = 8,
        "the page is marked continued and no packet is unfinished, or the other way round";
    PacketTooLong = 9,
        "a packet has more than 61,440 bytes";
    HeaderShape = 10,
        "the first page is not exactly one completed packet, or a page of the comment header \
         is empty or has something after that packet";
    WrongGranule = 11,
        "the granule position is not 0 where a header completes, not all ones where no packet \
         completes, or above 2^63 - 1 where an audio packet completes";
    BadHead = 12,
        "the identification header is wrong in its signature, its version or its length; the \
         stream may not be Opus";
    BadMapping = 13,
        "the channel mapping of the identification header is wrong, or a packet is read alone \
         for a number of streams outside 1 to 255";
    BadTags = 14,
        "the comment header is wrong: its signature, a length that passes its end, a text \
         that is no UTF-8, a name, or a gain named twice";
    IllegalPacket = 15,
        "an audio packet is empty, or one of its Opus packets breaks a rule of RFC 6716, 3.4";
    MixedLengths = 16,
        "the Opus packets of an audio packet differ in their length in samples";
    GranuleTooSmall = 17,
        "the granule position is too small for the samples of the packets that complete on \
         the page";
    BelowPreSkip = 18,
        "the first page where an audio packet completes is marked last, and its granule \
         position is below the pre-skip";
    NoPosition = 19,
        "the reader was opened part way, and its first page where a packet completes is \
         marked last";
    NoSuchPart = 20,
        "a comment is asked for whose number is not below the count, or an entry that the \
         matrix does not have";
    BadGain = 21,
        "the text of a gain is wrong, or the comment has no \"=\"";
    ShortOutput = 22,
        "the output, or a list, is shorter than what is to be written to it, or the lists of \
         an index differ in length";
    UnfitFields = 23,
        "a writer, or opening part way, gets fields that no reading gives";
    HeadersIncomplete = 24,
        "the stream ends before its comment header is complete; or, where it is salvaged, no \
         page is marked first or a header is lost";
    FallingGranule = 26,
        "a granule position of the index is below the one before it";
    NoCropStart = 29,
        "no crop begins there: the stream has no such page, or it is one of the headers, is \
         marked continued or last, or completes no packet; or no page at which a crop may \
         begin starts at or before the position";
    ClockRange = 30,
        "the old clock gets a length that is not a multiple of 120 from 120 to 5,760, or its \
         count would pass 2^63 - 1";
}

impl Refusal {
    /// Its number. It refuses nothing.
    ///
    /// ```
    /// use embulgri::refusal::Refusal;
    ///
    /// assert_eq!(Refusal::AfterEnd.number(), 2);
    /// assert!(Refusal::ALL.is_sorted_by_key(|why| why.number()));
    /// ```
    pub fn number(self) -> u32 {
        self as u32
    }

    /// The refusal with this number; none where there is no such. It refuses nothing.
    ///
    /// ```
    /// use embulgri::refusal::Refusal;
    ///
    /// assert_eq!(Refusal::of(2), Some(Refusal::AfterEnd));
    /// assert_eq!(Refusal::of(0), None);
    /// ```
    pub fn of(number: u32) -> Option<Refusal> {
        let mut all = Refusal::ALL.iter().copied();
        all.find(|refusal| refusal.number() == number)
    }
}

impl fmt::Display for Refusal {
    fn fmt(&self, f: &mut fmt::Formatter) -> fmt::Result {
        write!(f, "refused by {}: {}", self.number(), self.meaning())
    }
}

impl Error for Refusal {}

/// Whether a call was accepted, by the number that it returns: 0, or that of the refusal, of which
/// the library promises no other.
pub(crate) fn accepted(number: u32) -> Result<(), Refusal> {
    match (number, Refusal::of(number)) {
        (0, _) => Ok(()),
        (_, Some(why)) => Err(why),
        (_, None) => panic!("the library breaks a promise: {number} is no refusal's number"),
    }
}
