//! The listing of an index, which `embulgri index` prints, read again.

use crate::index::room_for;
use crate::input::Input;
use crate::numbers::decimal;
use crate::trouble::Trouble;
use embulgri::lines;
use embulgri::records::{Index, Record};

/// More than the first line takes.
const ROOM: usize = 64;

/// The line of a record, by its number; the heading is line 1.
pub fn line_of(number: usize) -> usize {
    number + 2
}

/// The index that an input is the listing of. It has the heading, and a line for each record.
pub fn read(input: &mut Input) -> Result<Index, Trouble> {
    input.read_whole()?;
    let Some(records) = after_heading(input.bytes()) else {
        let message = format!("line 1 of {} is not that of an index", input.name());
        return Err(Trouble::new(message));
    };
    let count = records.iter().filter(|byte| **byte == b'\n').count();
    let mut index = room_for(count)?;
    for (number, line) in records.split_inclusive(|byte| *byte == b'\n').enumerate() {
        let Some(record) = record_of(line) else {
            return Err(Trouble::new(format!(
                "line {} of {} is no whole line of three numbers, as an index has",
                line_of(number),
                input.name()
            )));
        };
        index.set(number, record);
    }
    Ok(index)
}

/// What follows the heading, as the library puts it; none where there is another.
fn after_heading(bytes: &[u8]) -> Option<&[u8]> {
    let mut heading = [0; ROOM];
    let n = lines::put_index_first(&mut heading, 0);
    bytes.strip_prefix(&heading[..n])
}

/// The record that a whole line has.
fn record_of(line: &[u8]) -> Option<Record> {
    let mut fields = line.strip_suffix(b"\n")?.split(|byte| *byte == b' ');
    let record = Record {
        granule: field(fields.next()?)?,
        place: field(fields.next()?)?,
        sequence: field(fields.next()?)?.try_into().ok()?,
    };
    fields.next().is_none().then_some(record)
}

/// A number as the library writes it: without zeros before it.
fn field(text: &[u8]) -> Option<u64> {
    match text {
        [b'0', _, ..] => None,
        _ => decimal(text),
    }
}
