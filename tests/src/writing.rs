//! What a writing call leaves in its output and in the bytes around it, and what the rules say that
//! it leaves.

use crate::ffi;
use crate::head::{self, Head};
use crate::ogg::{self, Page};
use crate::tags::{self, JoinedTags};
use std::fmt::Display;

/// What the length written is before a call.
const OLD_LENGTH: u64 = 0xa5a5_0000_9999_5a5a;

/// The bytes watched before and after an output.
pub const BEFORE: usize = 16;
pub const BEHIND: usize = 64;

/// What a writer of the library can be given.
pub trait Writable {
    /// The length in bytes once written.
    fn length(&self) -> usize;
    /// The bytes to be written to an output of `room` bytes, or the refusal's number.
    fn by_rules(&self, room: usize) -> Result<Vec<u8>, u32>;
    /// The library's answer.
    fn by_library(&self, out: &mut [u8], written: &mut u64) -> u32;
}

impl Writable for Page {
    fn length(&self) -> usize {
        self.length()
    }

    fn by_rules(&self, room: usize) -> Result<Vec<u8>, u32> {
        ogg::write(self, room)
    }

    fn by_library(&self, out: &mut [u8], written: &mut u64) -> u32 {
        ffi::page_write(self, out, written)
    }
}

impl Writable for Head {
    fn length(&self) -> usize {
        self.length()
    }

    fn by_rules(&self, room: usize) -> Result<Vec<u8>, u32> {
        head::write(self, room)
    }

    fn by_library(&self, out: &mut [u8], written: &mut u64) -> u32 {
        ffi::head_write(self, out, written)
    }
}

impl Writable for JoinedTags {
    fn length(&self) -> usize {
        self.length()
    }

    fn by_rules(&self, room: usize) -> Result<Vec<u8>, u32> {
        tags::write(self, room)
    }

    fn by_library(&self, out: &mut [u8], written: &mut u64) -> u32 {
        ffi::tags_write(self, out, written)
    }
}

/// What a writer is given: an input, and an output of `room` bytes after `before` others.
pub struct Request<'a, T> {
    pub input: &'a T,
    pub before: usize,
    pub room: usize,
}

impl<T: Writable> Request<'_, T> {
    /// An output of exactly the length needed.
    pub fn exact(input: &T) -> Request<'_, T> {
        Request {
            input,
            before: BEFORE,
            room: input.length(),
        }
    }
}

/// What a call of a writer leaves: its answer, the length and all bytes around the output.
struct Writing {
    answer: u32,
    written: u64,
    buffer: Vec<u8>,
}

impl Writing {
    fn by_library<T: Writable>(request: &Request<T>) -> Writing {
        let mut writing = Writing::untouched(request, 0);
        let output = &mut writing.buffer[request.before..][..request.room];
        writing.answer = request.input.by_library(output, &mut writing.written);
        writing
    }

    fn by_rules<T: Writable>(request: &Request<T>) -> Writing {
        match request.input.by_rules(request.room) {
            Ok(bytes) => Writing::accepted(request, &bytes),
            Err(answer) => Writing::untouched(request, answer),
        }
    }

    fn accepted<T: Writable>(request: &Request<T>, bytes: &[u8]) -> Writing {
        let mut writing = Writing::untouched(request, 0);
        writing.written = bytes.len() as u64;
        writing.buffer[request.before..][..bytes.len()].copy_from_slice(bytes);
        writing
    }

    /// A buffer that would hold the bytes even if the room does not, so that bytes written all the
    /// same are seen.
    fn untouched<T: Writable>(request: &Request<T>, answer: u32) -> Writing {
        let length = request.before + request.room.max(request.input.length()) + BEHIND;
        Writing {
            answer,
            written: OLD_LENGTH,
            buffer: old_bytes(length),
        }
    }

    fn assert_is(&self, expected: &Writing, case: impl Display) {
        assert_eq!(self.answer, expected.answer, "number, {case}");
        assert_eq!(self.written, expected.written, "length written, {case}");
        assert_same_bytes(&self.buffer, &expected.buffer, case);
    }
}

/// What the bytes of a buffer are before a call. None is zero, as zeros are what is often stored.
pub fn old_bytes(length: usize) -> Vec<u8> {
    (0..length)
        .map(|place| (place as u8).wrapping_mul(167) | 1)
        .collect()
}

/// Names the first place that differs, as the buffers are too long to print.
pub fn assert_same_bytes(found: &[u8], expected: &[u8], case: impl Display) {
    assert_eq!(found.len(), expected.len(), "length, {case}");
    if found != expected {
        let place = (0..found.len()).find(|&i| found[i] != expected[i]);
        panic!("bytes differ first at {place:?}, {case}");
    }
}

/// Writes by the library, holds it to the rules and gives the answer.
pub fn check_writing<T: Writable>(request: &Request<T>, case: impl Display) -> u32 {
    let writing = Writing::by_library(request);
    writing.assert_is(&Writing::by_rules(request), case);
    writing.answer
}

/// The bytes that the library writes for a legal input.
pub fn written<T: Writable>(input: &T) -> Vec<u8> {
    let request = Request::exact(input);
    let writing = Writing::by_library(&request);
    assert_eq!(writing.answer, 0);
    assert_eq!(writing.written, request.room as u64);
    writing.buffer[request.before..][..request.room].to_vec()
}
