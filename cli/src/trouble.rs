//! What ends the program with status 3, and how it speaks on standard error.

use crate::terminal;
use std::fmt;
use std::io;

/// A message for standard error.
pub struct Trouble(String);

impl Trouble {
    /// With this message.
    pub fn new(message: impl Into<String>) -> Trouble {
        Trouble(message.into())
    }

    /// Of an input that cannot be opened or read.
    pub fn reading(name: &str, why: &io::Error) -> Trouble {
        Trouble(format!("cannot read {name}: {why}"))
    }

    /// Of standard output that takes no more.
    pub fn writing(why: &io::Error) -> Trouble {
        Trouble(format!("cannot write: {why}"))
    }

    /// Of an answer that the library promises not to give.
    pub fn unforeseen(answer: impl fmt::Display) -> Trouble {
        Trouble(format!("the library breaks a promise: {answer}"))
    }
}

impl fmt::Display for Trouble {
    fn fmt(&self, f: &mut fmt::Formatter) -> fmt::Result {
        f.write_str(&self.0)
    }
}

/// Says a message on standard error.
pub fn say(message: impl fmt::Display) {
    terminal::show(&format!("embulgri: {message}\n"));
}
