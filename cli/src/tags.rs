//! The headers of a recording.

use crate::ending::{feed_rest, Ending, Stopped};
use crate::input::Input;
use crate::output::Output;
use crate::trouble::Trouble;
use embulgri::pages::{page_end, Page};
use embulgri::reader::Reader;
use embulgri::{lines, HEADER_LINES_MAX};

/// How far reading the headers has come: the identification header's packet, the length of the
/// comment header's, which the reader holds, and the pages accepted so far.
struct Headers {
    reader: Reader,
    head: Vec<u8>,
    tags: usize,
    pages: u64,
}

/// Shows the headers of an input, or the refusal of one of their pages.
pub fn tags(input: &mut Input) -> Result<Ending, Trouble> {
    let mut h = Headers {
        reader: Reader::start(),
        head: Vec::new(),
        tags: 0,
        pages: 0,
    };
    let mut output = Output::with_room(HEADER_LINES_MAX);
    match h.read(input) {
        Ok(()) => {
            let tags = h.reader.carried(h.tags);
            output.fill(|out| lines::put_headers(&h.head, tags, out))?;
            output.write().map(|()| Ending::Done)
        }
        Err(Stopped::Refused(why)) => output.end_refused(why, h.pages, input.place()),
        Err(Stopped::Trouble(trouble)) => Err(trouble),
    }
}

impl Headers {
    /// Feeds pages until both headers are complete.
    fn read(&mut self, input: &mut Input) -> Result<(), Stopped> {
        while !self.reader.has_headers() {
            if let Some(end) = page_end(input.bytes()) {
                self.feed(&input.bytes()[..end])?;
                input.take(end);
            } else if !input.read_more()? {
                feed_rest(input, &mut self.reader)?;
                let name = input.name();
                let message = format!("{name} ends before the comment header is complete");
                return Err(Trouble::new(message).into());
            }
        }
        Ok(())
    }

    /// Feeds a page. The body of the first is the identification header's packet, and that of any
    /// other follows what is held of the comment header's.
    fn feed(&mut self, page: &[u8]) -> Result<(), Stopped> {
        let held = self.reader.held();
        self.reader.feed(page).map_err(Stopped::Refused)?;
        let body = Page::read(page).map_err(Trouble::unforeseen)?.body;
        if self.pages == 0 {
            self.head = body.to_vec();
        }
        self.tags = held + body.len();
        self.pages += 1;
        Ok(())
    }
}
