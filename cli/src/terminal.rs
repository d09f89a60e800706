//! Standard error: what is said there, and the line of progress where it is a terminal.

use std::io::{self, IsTerminal, Write};
use std::sync::{Mutex, MutexGuard, PoisonError};

/// Erases from the cursor to the end of the line.
const ERASE: &str = "\x1b[K";

/// The line of progress.
#[derive(Clone, Copy, PartialEq)]
enum Line {
    Absent,
    /// It is on the terminal, and the cursor is at its start.
    Stands,
    /// It is not to be shown any more.
    Over,
}

static LINE: Mutex<Line> = Mutex::new(Line::Absent);

/// The line, for one thread at a time.
fn line() -> MutexGuard<'static, Line> {
    LINE.lock().unwrap_or_else(PoisonError::into_inner)
}

/// Writes to standard error. Where that fails, there is nothing left to say it to.
fn write(text: &str) {
    let _ = io::stderr().write_all(text.as_bytes());
}

/// Erases the line where it stands.
fn make_absent(line: &mut Line) {
    if *line == Line::Stands {
        write(ERASE);
        *line = Line::Absent;
    }
}

/// Whether a line of progress may be shown: standard error is a terminal, and the line is not over.
pub fn may_show() -> bool {
    io::stderr().is_terminal() && *line() != Line::Over
}

/// Shows the line with this text, in place of what it was.
pub fn renew(text: &str) {
    let mut line = line();
    if *line != Line::Over {
        write(&format!("embulgri: {text}{ERASE}\r"));
        *line = Line::Stands;
    }
}

/// Erases the line.
pub fn erase() {
    make_absent(&mut line());
}

/// Erases the line, and shows it no more.
pub fn end() {
    let mut line = line();
    make_absent(&mut line);
    *line = Line::Over;
}

/// Shows a text on standard error, in place of the line.
pub fn show(text: &str) {
    let mut line = line();
    make_absent(&mut line);
    write(text);
}
