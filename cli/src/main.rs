//! The program `embulgri`. It maps or reads its input, lends memory to the verified library, and
//! prints what the library's functions put there; what is accepted, refused and printed of a
//! recording is decided by these alone. Of the lines of `check` only the words are its own.
//!
//! It has no `main` of Rust's own: that would open /dev/null in place of a standard stream that is
//! closed, so that a listing could be lost with status 0. The C library calls the one in `system`.
#![no_main]
#![deny(unsafe_code)]

mod advice;
mod arguments;
mod check;
mod crop;
mod ending;
mod help;
mod index;
mod input;
mod list;
mod listing;
mod numbers;
mod output;
mod progress;
mod replaced;
mod salvage;
mod seek;
#[allow(unsafe_code)]
mod system;
mod tags;
mod terminal;
mod trouble;

use crate::arguments::{Name, Task};
use crate::ending::Ending;
use crate::input::Input;
use crate::progress::{Progress, Shown};
use crate::trouble::{say, Trouble};
use std::ffi::c_int;

/// Does what the arguments ask for, and gives the exit status.
fn status() -> c_int {
    system::signals::prepare();
    let words: Vec<_> = std::env::args_os().skip(1).collect();
    let (words, quiet) = arguments::without_quiet(words);
    if quiet {
        terminal::end();
    }
    match arguments::task_of(&words).and_then(run) {
        Ok(status) => status,
        Err(trouble) => {
            say(trouble);
            3
        }
    }
}

/// Does a task, and gives the exit status.
fn run(task: Task) -> Result<c_int, Trouble> {
    match task {
        Task::List(name) => follow(Input::open(name)?, Shown::Share, list::list),
        Task::Tags(name) => follow(Input::open(name)?, Shown::Share, tags::tags),
        Task::Index(name) => follow(Input::open(name)?, Shown::Seconds("index"), index::index),
        Task::Seek {
            recording,
            position,
            listing,
        } => seek(Input::open(recording)?, position, listing),
        Task::Salvage { input, out } => {
            let shown = Shown::Seconds("salvage");
            follow(Input::open(input)?, shown, |input| {
                salvage::salvage(input, &out)
            })
        }
        Task::Crop { input, begin, out } => {
            let shown = Shown::Seconds("crop");
            follow(Input::open(input)?, shown, |input| {
                crop::crop(input, &begin, &out)
            })
        }
        Task::Check { recording, explain } => {
            let shown = Shown::Seconds("check");
            follow(Input::open(recording)?, shown, |input| {
                check::check(input, explain)
            })
        }
        Task::Print(text) => output::print(&text).map(|()| 0),
        Task::Usage => {
            terminal::show(help::ALL);
            Ok(3)
        }
    }
}

/// Seeks a position in a recording, by its own index or by a listing.
fn seek(mut recording: Input, position: u64, listing: Option<Name>) -> Result<c_int, Trouble> {
    let shown = Shown::Seconds("seek");
    match listing {
        None => follow(recording, shown, |input| seek::seek(input, position)),
        Some(name) => follow(Input::open(name)?, shown, |listing| {
            seek::seek_by(listing, &mut recording, position)
        }),
    }
}

/// Follows an input, shows how far that has come, and says in words why it was refused.
fn follow(
    mut input: Input,
    shown: Shown,
    task: impl FnOnce(&mut Input) -> Result<Ending, Trouble>,
) -> Result<c_int, Trouble> {
    let progress = Progress::of(&input, shown);
    let ending = task(&mut input)?;
    drop(progress);
    let (why, what) = match ending {
        Ending::Done => return Ok(0),
        Ending::Advised => return Ok(1),
        Ending::StreamRefused { why } => (why, "the stream is".into()),
        Ending::CropRefused { why } => (why, "the crop is".into()),
        Ending::Refused { why, page, at } => {
            (why, format!("page {page}, which starts at byte {at}, is"))
        }
        Ending::IndexRefused { why, place } => (why, format!("the record at place {place} is")),
    };
    let name = input.name();
    say(format_args!("{name}: {what} {why}"));
    Ok(2)
}
