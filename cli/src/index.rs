//! The index of a recording.

use crate::ending::{Ending, Stopped};
use crate::input::Input;
use crate::output::Output;
use crate::trouble::Trouble;
use embulgri::lines;
use embulgri::pages;
use embulgri::records::{self, Index};
use embulgri::refusal::Refusal;

/// What waits to be written at most.
const ROOM: usize = 131_072;

/// Lists the index of an input: its records, or the refusal alone.
pub fn index(input: &mut Input) -> Result<Ending, Trouble> {
    let mut output = Output::with_room(ROOM);
    match index_of(input) {
        Ok(index) => {
            let n = index.count();
            output.put(lines::put_index_first)?;
            output.put_lines(n, |from, out, at| {
                lines::put_records(&index, from..n, out, at)
            })?;
            output.write().map(|()| Ending::Done)
        }
        Err(Stopped::Refused(why)) => end_refused(input, why, output),
        Err(Stopped::Trouble(trouble)) => Err(trouble),
    }
}

/// The index of an input, which is got whole for that.
pub fn index_of(input: &mut Input) -> Result<Index, Stopped> {
    input.read_whole()?;
    let mut index = room_for(records::count_of(input.bytes()))?;
    match index.build(input.bytes()) {
        Ok(()) => Ok(index),
        Err(why) => Err(Stopped::Refused(why)),
    }
}

/// An index with room for so many records.
pub fn room_for(n: usize) -> Result<Index, Trouble> {
    Index::with_room(n)
        .ok_or_else(|| Trouble::new(format!("no memory for {n} records of an index")))
}

/// Ends with the line of the refusal of an input. Where the input ends before its comment header is
/// complete, no page is refused, and the line names none.
pub fn end_refused(input: &mut Input, why: Refusal, mut output: Output) -> Result<Ending, Trouble> {
    let page = match pages::judge(input.bytes()) {
        Err(refused) if refused.why == why => refused.page,
        _ => return Err(Trouble::unforeseen(why)),
    };
    let Some(page) = page else {
        return output.end_stream_refused(why);
    };
    for _ in 0..page {
        let end = pages::page_end(input.bytes()).ok_or_else(|| Trouble::unforeseen(why))?;
        input.take(end);
    }
    output.end_refused(why, page, input.place())
}
