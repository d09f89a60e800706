//! A reader of one stream, with the memory that is lent to it.
//!
//! ```
//! use embulgri::pages::page_end;
//! use embulgri::reader::Reader;
//! use embulgri::refusal::Refusal;
//!
//! let stream = std::fs::read("../examples/drip.opus")?;
//! let mut reader = Reader::start();
//! let mut rest = &stream[..];
//! while let Some(end) = page_end(rest) {
//!     reader.feed(&rest[..end]).expect("a page of a whole stream");
//!     rest = &rest[end..];
//! }
//! let totals = reader.totals();
//! assert_eq!((totals.kept, totals.skipped, totals.trimmed), (288_000, 312, 648));
//! assert_eq!(reader.feed(&stream[..47]), Err(Refusal::AfterEnd));
//! # Ok::<(), std::io::Error>(())
//! ```

mod told;

pub use told::{Fed, Listed, Packet, Stop, Totals};

use crate::head::Head;
use crate::refusal::{accepted, Refusal};
use crate::{ffi, PACKET_MAX, PLACES};

/// Follows a stream page by page. What it tells of packets is in its lists until it is fed again. A
/// copy of it goes on from where it was copied.
#[derive(Clone)]
pub struct Reader {
    pub(crate) state: [u64; 16],
    carry: Vec<u8>,
    pub(crate) ends: Vec<u64>,
    pub(crate) lengths: Vec<u64>,
    pub(crate) kept: Vec<u64>,
    pub(crate) frames: Vec<u64>,
}

impl Reader {
    /// A reader that waits for the first page of a stream. It refuses nothing.
    ///
    /// ```
    /// use embulgri::reader::Reader;
    /// use embulgri::refusal::Refusal;
    ///
    /// let stream = std::fs::read("../examples/drip.opus")?;
    /// let mut reader = Reader::start();
    /// assert_eq!(reader.feed(&stream[47..841]), Err(Refusal::OutOfSequence), "the second page");
    /// assert!(reader.feed(&stream[..47]).is_ok());
    /// # Ok::<(), std::io::Error>(())
    /// ```
    pub fn start() -> Reader {
        let mut state = [0; 16];
        ffi::start(&mut state);
        Reader::with(state)
    }

    /// A reader that waits for any audio page of a stream with this identification header. A packet
    /// that began before that page is not listed, and the pre-skip is not skipped.
    ///
    /// Refuses by [`Refusal::UnfitFields`] a version above 15 and fields that [`Head::read`] does
    /// not give.
    ///
    /// ```
    /// use embulgri::head::Head;
    /// use embulgri::reader::Reader;
    /// use embulgri::refusal::Refusal;
    ///
    /// let stream = std::fs::read("../examples/drip.opus")?;
    /// let head = Head::read(&stream[28..47]).expect("an identification header");
    /// let mut reader = Reader::open(&head).expect("fields that were read");
    /// let fed = reader.feed_pages(&stream[8_330..]);
    /// assert_eq!((fed.pages, fed.packets), (4, 151));
    /// assert_eq!(reader.packet(0).end, 144_960);
    ///
    /// let unfit = Head { channels: 0, ..head };
    /// assert_eq!(Reader::open(&unfit).err(), Some(Refusal::UnfitFields));
    /// # Ok::<(), std::io::Error>(())
    /// ```
    pub fn open(head: &Head) -> Result<Reader, Refusal> {
        let mut state = [0; 16];
        accepted(ffi::open(&head.fields(), &head.mapping, &mut state))?;
        Ok(Reader::with(state))
    }

    /// A reader in this state, with new memory.
    fn with(state: [u64; 16]) -> Reader {
        Reader {
            state,
            carry: vec![0; PACKET_MAX],
            ends: vec![0; PLACES],
            lengths: vec![0; PLACES],
            kept: vec![0; PLACES],
            frames: vec![0; PLACES],
        }
    }

    /// Whether both headers are complete; of a reader that was opened part way they are. An example
    /// is at [`Reader::carried`].
    pub fn has_headers(&self) -> bool {
        self.state[0] >= 2
    }

    /// How many bytes of an unfinished packet are held. An example is at [`Reader::carried`].
    pub fn held(&self) -> usize {
        self.state[2] as usize
    }

    /// The totals of the pages that were accepted. It refuses nothing.
    ///
    /// ```
    /// use embulgri::reader::{Reader, Totals};
    ///
    /// let stream = std::fs::read("../examples/drip.opus")?;
    /// let mut reader = Reader::start();
    /// reader.feed_pages(&stream);
    /// let all = Totals { kept: 288_000, skipped: 312, trimmed: 648, hole: 0 };
    /// assert_eq!(reader.totals(), all);
    /// # Ok::<(), std::io::Error>(())
    /// ```
    pub fn totals(&self) -> Totals {
        Totals {
            kept: self.state[10],
            skipped: self.state[11],
            trimmed: self.state[12],
            hole: self.state[13],
        }
    }

    /// The packet in this place of the lists, the first being 0. Only places below the number of
    /// packets that feeding told have one of the last feeding. It panics where the place is not
    /// below [`PLACES`].
    ///
    /// ```
    /// use embulgri::reader::{Packet, Reader};
    ///
    /// let stream = std::fs::read("../examples/drip.opus")?;
    /// let mut reader = Reader::start();
    /// let fed = reader.feed_pages(&stream);
    /// let last = Packet { end: 288_960, length: 960, kept: 312, frames: 1 };
    /// assert_eq!(reader.packet(fed.packets - 1), last);
    /// # Ok::<(), std::io::Error>(())
    /// ```
    pub fn packet(&self, place: usize) -> Packet {
        Packet {
            end: self.ends[place],
            length: self.lengths[place],
            kept: self.kept[place],
            frames: self.frames[place],
        }
    }

    /// The first n bytes of the carry buffer, or all of it: the comment header, on the page that
    /// completes it. It refuses nothing.
    ///
    /// ```
    /// use embulgri::comments::Comments;
    /// use embulgri::pages::Page;
    /// use embulgri::reader::Reader;
    ///
    /// let stream = std::fs::read("../examples/drip.opus")?;
    /// let mut reader = Reader::start();
    /// reader.feed(&stream[..47]).expect("the first page");
    /// assert!(!reader.has_headers());
    ///
    /// let page = Page::read(&stream[47..841]).expect("the second page");
    /// let n = reader.held() + page.body.len();
    /// reader.feed(&stream[47..841]).expect("the page that completes the comment header");
    /// assert!(reader.has_headers());
    /// let comments = Comments::read(reader.carried(n)).expect("a comment header");
    /// assert_eq!(comments.count(), 5);
    /// # Ok::<(), std::io::Error>(())
    /// ```
    pub fn carried(&self, n: usize) -> &[u8] {
        &self.carry[..n.min(self.carry.len())]
    }

    /// Feeds one page, and tells of it.
    ///
    /// Refuses a page that may not come next, and bytes that are no page, by one of the refusals
    /// from [`Refusal::AfterEnd`] to [`Refusal::NoPosition`]; where several hold, by the one that
    /// docs/RULES.md says. The reader stays as it was then.
    ///
    /// ```
    /// use embulgri::reader::Reader;
    /// use embulgri::refusal::Refusal;
    ///
    /// let stream = std::fs::read("../examples/drip.opus")?;
    /// let mut reader = Reader::start();
    /// reader.feed_pages(&stream[..841]);
    /// assert_eq!(reader.feed(&stream[841..3_280]), Err(Refusal::NotOnePage));
    ///
    /// let listed = reader.feed(&stream[841..3_281]).expect("the first audio page");
    /// assert_eq!((listed.packets, listed.samples), (50, 48_000));
    /// assert_eq!((listed.totals.kept, listed.totals.skipped), (47_688, 312));
    /// assert_eq!(reader.feed(&stream[841..3_281]), Err(Refusal::OutOfSequence));
    /// # Ok::<(), std::io::Error>(())
    /// ```
    pub fn feed(&mut self, page: &[u8]) -> Result<Listed, Refusal> {
        let mut counts = [0; 6];
        let number = ffi::feed(
            &mut self.state,
            page,
            &mut self.carry,
            &mut self.ends,
            &mut self.lengths,
            &mut self.kept,
            &mut self.frames,
            &mut counts,
        );
        accepted(number)?;
        let [packets, samples, kept, skipped, trimmed, hole] = counts;
        Ok(Listed {
            packets: packets as usize,
            samples,
            totals: Totals {
                kept,
                skipped,
                trimmed,
                hole,
            },
        })
    }

    /// Feeds the pages that lie one after the other in a buffer, until one is not whole there, or
    /// is refused, or the lists have no room for the packets of another; and tells how far that
    /// came.
    ///
    /// The refusal, [`Stop::Refused`], is the one that [`Reader::feed`] gives of that page. The
    /// pages before it are accepted.
    ///
    /// ```
    /// use embulgri::reader::{Fed, Reader, Stop};
    /// use embulgri::refusal::Refusal;
    ///
    /// let stream = std::fs::read("../examples/drip.opus")?;
    /// let mut reader = Reader::start();
    /// let fed = reader.feed_pages(&stream[..4_000]);
    /// let three = Fed { bytes: 3_281, pages: 3, packets: 50, stop: Stop::Cut };
    /// assert_eq!(fed, three, "the fourth page is not whole");
    ///
    /// let fed = reader.feed_pages(&stream);
    /// assert_eq!((fed.pages, fed.stop), (0, Stop::Refused(Refusal::OutOfSequence)));
    /// assert_eq!(reader.feed_pages(&stream[3_281..]).stop, Stop::Cut);
    /// # Ok::<(), std::io::Error>(())
    /// ```
    pub fn feed_pages(&mut self, bytes: &[u8]) -> Fed {
        let mut out = [0; 4];
        let number = ffi::program_feed(
            &mut self.state,
            bytes,
            &mut self.carry,
            &mut self.ends,
            &mut self.lengths,
            &mut self.kept,
            &mut self.frames,
            &mut out,
        );
        Fed {
            bytes: out[0] as usize,
            pages: out[1],
            packets: out[2] as usize,
            stop: stop_of(out[3], accepted(number)),
        }
    }
}

/// Why it stopped: a refusal, or what the number that is told beside it says.
fn stop_of(number: u64, accepted: Result<(), Refusal>) -> Stop {
    match (accepted, number) {
        (Err(why), _) => Stop::Refused(why),
        (Ok(()), 0) => Stop::Cut,
        (Ok(()), _) => Stop::Full,
    }
}
