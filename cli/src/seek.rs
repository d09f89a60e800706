//! The search for a position in a recording, by an index of it.

use crate::ending::{Ending, Stopped};
use crate::index::{end_refused, index_of};
use crate::input::Input;
use crate::listing;
use crate::output::Output;
use crate::trouble::Trouble;
use embulgri::lines;
use embulgri::pages::{page_end, Page};
use embulgri::records::{Index, Record, Refused, Sought};

/// More than two lines take.
const ROOM: usize = 1_024;

/// Seeks a position in an input, by its own index.
pub fn seek(input: &mut Input, position: u64) -> Result<Ending, Trouble> {
    match index_of(input) {
        Ok(index) => tell(&index, index.seek(position)),
        Err(Stopped::Refused(why)) => end_refused(input, why, Output::with_room(ROOM)),
        Err(Stopped::Trouble(trouble)) => Err(trouble),
    }
}

/// Seeks a position by the listing of an index. Of the input that it is the index of, only the page
/// of the record that is found is looked at.
pub fn seek_by(listing: &mut Input, input: &mut Input, position: u64) -> Result<Ending, Trouble> {
    let index = listing::read(listing)?;
    let sought = index.seek(position);
    if let Ok(Sought::Record { number, .. }) = sought {
        let record = index.record(number);
        if !has_page(input, &record)? {
            return Err(unfit(listing, number, &record, input));
        }
    }
    tell(&index, sought)
}

/// Whether the page at the place of a record has its granule position and its sequence number.
fn has_page(input: &mut Input, record: &Record) -> Result<bool, Trouble> {
    if !input.skip_to(record.place)? {
        return Ok(false);
    }
    loop {
        if let Some(end) = page_end(input.bytes()) {
            let page = Page::read(&input.bytes()[..end]);
            let position = page.map(|page| (page.granule, page.sequence));
            return Ok(position == Ok((record.granule, record.sequence)));
        }
        if !input.read_more()? {
            return Ok(false);
        }
    }
}

/// Of a record, by its number, whose page the input does not have.
fn unfit(listing: &Input, number: usize, record: &Record, input: &Input) -> Trouble {
    let line = listing::line_of(number);
    let Record {
        granule,
        place,
        sequence,
    } = record;
    Trouble::new(format!(
        "line {line} of {} does not fit {}: no page with granule position {granule} and sequence \
         number {sequence} starts at byte {place}",
        listing.name(),
        input.name()
    ))
}

/// Prints what a search in an index found.
fn tell(index: &Index, sought: Result<Sought, Refused>) -> Result<Ending, Trouble> {
    let mut output = Output::with_room(ROOM);
    match sought {
        Ok(Sought::Record { number, probes }) => {
            let record = index.record(number);
            output.put(lines::put_seek_first)?;
            output.put(|out, at| lines::put_found(&record, probes, out, at))?;
        }
        Ok(Sought::Begin { probes }) => output.put(|out, at| lines::put_begin(probes, out, at))?,
        Err(Refused { why, place }) => return output.end_index_refused(why, place),
    }
    output.write().map(|()| Ending::Done)
}
