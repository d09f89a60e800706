//! How the program begins, and what it asks of the system that Rust's own library does not offer,
//! on Linux for x86-64: all of its unsafe code.

mod mapping;
pub mod signals;

pub use mapping::Mapping;

use std::ffi::{c_char, c_int};
use std::fs::File;
use std::mem::ManuallyDrop;
use std::os::fd::FromRawFd;

/// Runs the program. The C library calls it; Rust's own library has the arguments from there
/// already.
// SAFETY: the program has no other `main`, and this is how C declares it.
#[unsafe(no_mangle)]
extern "C" fn main(_count: c_int, _words: *const *const c_char) -> c_int {
    crate::status()
}

/// Standard input. It is not closed before the program ends.
pub fn standard_input() -> ManuallyDrop<File> {
    standard(0)
}

/// Standard output. It is not closed before the program ends.
pub fn standard_output() -> ManuallyDrop<File> {
    standard(1)
}

/// The standard stream with this descriptor.
fn standard(descriptor: c_int) -> ManuallyDrop<File> {
    // SAFETY: the descriptor is never closed here, since what is not dropped is not closed; where
    // it was closed from the start, reading from it or writing to it fails and does no more.
    ManuallyDrop::new(unsafe { File::from_raw_fd(descriptor) })
}
