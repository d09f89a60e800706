//! Standard output, through one buffer of a fixed size.

use crate::ending::Ending;
use crate::system;
use crate::terminal;
use crate::trouble::Trouble;
use embulgri::lines::{self, Put};
use embulgri::refusal::Refusal;
use std::fmt;
use std::fs::File;
use std::io::{IsTerminal, Write};
use std::mem::ManuallyDrop;

/// Lines that wait to be written, and what takes them.
pub struct Output {
    room: Vec<u8>,
    filled: usize,
    file: ManuallyDrop<File>,
    /// What is written is seen by people, who are then shown no progress.
    seen: bool,
}

impl Output {
    /// Standard output with room for so many bytes. Its failures are told, also where it is closed.
    pub fn with_room(n: usize) -> Output {
        let file = system::standard_output();
        Output {
            room: vec![0; n],
            filled: 0,
            seen: file.is_terminal(),
            file,
        }
    }

    /// Lets a function of the library fill all of its room, from the start. It gives the length, or
    /// a refusal that the library promises not to give.
    pub fn fill(
        &mut self,
        put: impl Fn(&mut [u8]) -> Result<usize, Refusal>,
    ) -> Result<(), Trouble> {
        self.filled = put(&mut self.room).map_err(Trouble::unforeseen)?;
        Ok(())
    }

    /// Puts a line. Where it does not fit after the others, those are written first.
    pub fn put(&mut self, line: impl Fn(&mut [u8], usize) -> usize) -> Result<(), Trouble> {
        let mut at = line(&mut self.room, self.filled);
        if at == self.filled {
            self.write()?;
            at = line(&mut self.room, 0);
        }
        self.filled = at;
        Ok(())
    }

    /// Puts a line of the program's own.
    pub fn put_text(&mut self, line: fmt::Arguments) -> Result<(), Trouble> {
        self.put(|out, at| put_at(line, out, at))
    }

    /// Puts so many lines. The function puts those from a number on, as many as surely fit.
    pub fn put_lines(
        &mut self,
        count: usize,
        lines_from: impl Fn(usize, &mut [u8], usize) -> Put,
    ) -> Result<(), Trouble> {
        let mut listed = 0;
        while listed < count {
            let put = lines_from(listed, &mut self.room, self.filled);
            listed += put.count;
            self.filled = put.at;
            if listed < count {
                self.write()?;
            }
        }
        Ok(())
    }

    /// Puts the line of a refusal of a page, and writes what waits.
    pub fn end_refused(&mut self, why: Refusal, page: u64, at: u64) -> Result<Ending, Trouble> {
        self.put(|out, place| lines::put_refused(why, page, out, place))?;
        self.write()?;
        Ok(Ending::Refused { why, page, at })
    }

    /// Puts the line of a refusal of a whole stream, and writes what waits.
    pub fn end_stream_refused(&mut self, why: Refusal) -> Result<Ending, Trouble> {
        self.put(|out, at| lines::put_stream_refused(why, out, at))?;
        self.write()?;
        Ok(Ending::StreamRefused { why })
    }

    /// Puts the line of a refusal of a crop, and writes what waits.
    pub fn end_crop_refused(&mut self, why: Refusal) -> Result<Ending, Trouble> {
        self.end_stream_refused(why)?;
        Ok(Ending::CropRefused { why })
    }

    /// Puts the line of a refusal of an index, for the record at a place, and writes what waits.
    pub fn end_index_refused(&mut self, why: Refusal, place: u64) -> Result<Ending, Trouble> {
        self.put(|out, at| lines::put_index_refused(why, place, out, at))?;
        self.write()?;
        Ok(Ending::IndexRefused { why, place })
    }

    /// Writes what waits.
    pub fn write(&mut self) -> Result<(), Trouble> {
        if self.seen {
            terminal::end();
        }
        let waiting = &self.room[..self.filled];
        self.filled = 0;
        self.file
            .write_all(waiting)
            .map_err(|why| Trouble::writing(&why))
    }
}

/// Puts a line at a place, and gives the place after it, or the same place where it does not fit.
fn put_at(line: fmt::Arguments, out: &mut [u8], at: usize) -> usize {
    let n = out.len();
    let mut free = &mut out[at..];
    match free.write_fmt(line) {
        Ok(()) => n - free.len(),
        Err(_) => at,
    }
}

/// Writes a text to standard output.
pub fn print(text: &str) -> Result<(), Trouble> {
    let mut output = Output::with_room(text.len());
    output.room.copy_from_slice(text.as_bytes());
    output.filled = text.len();
    output.write()
}
