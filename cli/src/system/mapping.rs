//! Files mapped to memory, on Linux for x86-64.

use std::ffi::{c_int, c_void};
use std::fs::File;
use std::os::fd::AsRawFd;
use std::{ptr, slice};

const PROT_READ: c_int = 1;
const MAP_PRIVATE: c_int = 2;
const MADV_SEQUENTIAL: c_int = 2;

// SAFETY: each is declared as the C library has it on Linux for x86-64.
unsafe extern "C" {
    fn mmap(
        wish: *mut c_void,
        n: usize,
        protection: c_int,
        flags: c_int,
        descriptor: c_int,
        place: i64,
    ) -> *mut c_void;
    fn munmap(start: *mut c_void, n: usize) -> c_int;
    fn madvise(start: *mut c_void, n: usize, advice: c_int) -> c_int;
}

/// The bytes of a file, as long as it was when it was mapped. Where it gets shorter, touching what
/// is gone raises SIGBUS, which `signals` turns into a message and status 3. Its other bytes must
/// stay as they are: the library's promises are of memory that nothing else changes.
pub struct Mapping {
    start: *mut c_void,
    length: usize,
}

impl Mapping {
    /// The first n bytes of a file, which has as many; none where it cannot be mapped.
    pub fn of(file: &File, n: usize) -> Option<Mapping> {
        let descriptor = file.as_raw_fd();
        // SAFETY: a new mapping at a place that the system chooses overlaps no memory in use.
        let start = unsafe { mmap(ptr::null_mut(), n, PROT_READ, MAP_PRIVATE, descriptor, 0) };
        if start as isize == -1 {
            return None;
        }
        // SAFETY: the n bytes were just mapped. It is advice: whether it is taken does not matter.
        unsafe { madvise(start, n, MADV_SEQUENTIAL) };
        Some(Mapping { start, length: n })
    }

    /// All of its bytes.
    pub fn bytes(&self) -> &[u8] {
        // SAFETY: so many bytes are mapped for reading until this is dropped, and nothing in this
        // program writes to them.
        unsafe { slice::from_raw_parts(self.start.cast(), self.length) }
    }
}

impl Drop for Mapping {
    fn drop(&mut self) {
        // SAFETY: the bytes were mapped by `of`, and what borrowed them is gone.
        unsafe { munmap(self.start, self.length) };
    }
}
