//! A recording from one of its pages on.

use crate::arguments::Begin;
use crate::ending::{Ending, Stopped};
use crate::index::end_refused;
use crate::input::Input;
use crate::output::Output;
use crate::replaced::Replaced;
use crate::trouble::{say, Trouble};
use embulgri::cropping::{start_of, Crop, Start};
use embulgri::refusal::Refusal;
use std::ffi::OsStr;

/// More than one line takes.
const ROOM: usize = 1_024;

/// Crops an input to a file, which is made whole or not at all; or prints the refusal alone.
pub fn crop(input: &mut Input, begin: &Begin, out: &OsStr) -> Result<Ending, Trouble> {
    input.read_whole()?;
    input.must_not_be(out)?;
    match cropped(input.bytes(), begin) {
        Ok((crop, start)) => {
            Replaced::write(out, crop.stream())?;
            tell(input, &start);
            Ok(Ending::Done)
        }
        Err(Stopped::Refused(why @ Refusal::NoCropStart)) => {
            Output::with_room(ROOM).end_crop_refused(why)
        }
        Err(Stopped::Refused(why)) => end_refused(input, why, Output::with_room(ROOM)),
        Err(Stopped::Trouble(trouble)) => Err(trouble),
    }
}

/// The crop of a stream, and where it begins. The library is asked twice, and what it accepts the
/// first time it promises not to refuse the second.
fn cropped(stream: &[u8], begin: &Begin) -> Result<(Crop, Start), Stopped> {
    match *begin {
        Begin::Position(position) => {
            let start = start_of(stream, u64::MAX, position).map_err(Stopped::Refused)?;
            let mut crop = room_for(stream)?;
            crop.run(stream, start.page).map_err(Trouble::unforeseen)?;
            Ok((crop, start))
        }
        Begin::Page(page) => {
            let mut crop = room_for(stream)?;
            crop.run(stream, page).map_err(Stopped::Refused)?;
            match start_of(stream, page, u64::MAX) {
                Ok(start) if start.page == page => Ok((crop, start)),
                Ok(_) => Err(Trouble::unforeseen("it begins the crop at another page").into()),
                Err(why) => Err(Trouble::unforeseen(why).into()),
            }
        }
    }
}

/// Room for the crop of a stream.
fn room_for(stream: &[u8]) -> Result<Crop, Trouble> {
    let n = stream.len();
    Crop::of(n).ok_or_else(|| Trouble::new(format!("no memory to crop an input of {n} bytes")))
}

/// Says in words where a crop begins.
fn tell(input: &Input, start: &Start) {
    let name = input.name();
    let Start { page, position } = start;
    say(format_args!(
        "{name}: the crop begins with page {page}; its first packet starts at position {position}"
    ));
}
