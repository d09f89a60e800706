//! The listing of a recording.

use crate::ending::{feed_rest, Ending, Stopped};
use crate::input::Input;
use crate::output::Output;
use crate::trouble::Trouble;
use embulgri::lines;
use embulgri::reader::{Reader, Stop};

/// What waits to be written at most.
const ROOM: usize = 131_072;

/// How far a listing has come: the lines that wait, and the pages accepted so far.
struct Listing {
    reader: Reader,
    output: Output,
    pages: u64,
}

/// Lists an input: its packets, and the total or the refusal. Where it cannot be read at all,
/// nothing is written. Where reading fails later, the lines before are, and no last one.
pub fn list(input: &mut Input) -> Result<Ending, Trouble> {
    input.read_more()?;
    let mut l = Listing {
        reader: Reader::start(),
        output: Output::with_room(ROOM),
        pages: 0,
    };
    l.output.put(lines::put_first)?;
    match l.feed(input) {
        Ok(()) => {
            l.output
                .put(|out, at| lines::put_total(&l.reader, out, at))?;
            l.output.write().map(|()| Ending::Done)
        }
        Err(Stopped::Refused(why)) => l.output.end_refused(why, l.pages, input.place()),
        Err(Stopped::Trouble(trouble)) => l.output.write().and(Err(trouble)),
    }
}

impl Listing {
    /// Feeds all of an input, and puts the lines of its packets.
    fn feed(&mut self, input: &mut Input) -> Result<(), Stopped> {
        loop {
            let fed = self.reader.feed_pages(input.bytes());
            input.take(fed.bytes);
            self.pages += fed.pages;
            self.output.put_lines(fed.packets, |from, out, at| {
                lines::put_entries(&self.reader, from..fed.packets, out, at)
            })?;
            match fed.stop {
                Stop::Full => {}
                Stop::Refused(why) => return Err(Stopped::Refused(why)),
                Stop::Cut if input.read_more()? => {}
                Stop::Cut => return feed_rest(input, &mut self.reader),
            }
        }
    }
}
