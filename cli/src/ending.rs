//! How following an input ends.

use crate::input::Input;
use crate::trouble::Trouble;
use embulgri::reader::Reader;
use embulgri::refusal::Refusal;

/// How a task ends that met no trouble.
pub enum Ending {
    /// It is done.
    Done,
    /// The stream is whole, and something was found in it that its writer was advised against; the
    /// lines that say so are printed.
    Advised,
    /// This page, which starts at this byte of the input, was refused; the line that says so is
    /// printed.
    Refused { why: Refusal, page: u64, at: u64 },
    /// No page was refused, but the stream was; the line that says so is printed.
    StreamRefused { why: Refusal },
    /// No page was refused, but the crop was; the line that says so is printed.
    CropRefused { why: Refusal },
    /// The index was refused, for the record at this place of it; the line that says so is printed.
    IndexRefused { why: Refusal, place: u64 },
}

/// What stops feeding, building an index, or cropping, before the end: a refusal, or trouble.
pub enum Stopped {
    Refused(Refusal),
    Trouble(Trouble),
}

impl From<Trouble> for Stopped {
    fn from(trouble: Trouble) -> Stopped {
        Stopped::Trouble(trouble)
    }
}

/// Feeds the bytes that the end of an input has left, which are no whole page: they are refused.
/// Where none are left, nothing is fed.
pub fn feed_rest(input: &Input, reader: &mut Reader) -> Result<(), Stopped> {
    if input.bytes().is_empty() {
        return Ok(());
    }
    match reader.feed(input.bytes()) {
        Err(why) => Err(Stopped::Refused(why)),
        Ok(_) => Err(Trouble::unforeseen("it accepted what is no whole page").into()),
    }
}
