//! Memory that is reserved and takes room only where it is touched, on Linux for x86-64.

use std::ffi::{c_int, c_void};
use std::marker::PhantomData;
use std::{mem, ptr, slice};

const PROT_READ_WRITE: c_int = 3;
const MAP_PRIVATE: c_int = 2;
const MAP_ANONYMOUS: c_int = 32;
const MAP_NORESERVE: c_int = 16_384;
const MADV_HUGEPAGE: c_int = 14;

// SAFETY: each is declared as the C library has it on Linux for x86-64.
unsafe extern "C" {
    fn mmap(
        wish: *mut c_void,
        n: usize,
        protection: c_int,
        flags: c_int,
        descriptor: c_int,
        place: i64,
    ) -> *mut c_void;
    fn munmap(start: *mut c_void, n: usize) -> c_int;
    fn madvise(start: *mut c_void, n: usize, advice: c_int) -> c_int;
}

/// A number, of which zero bytes are one.
pub trait Plain: Copy {}

impl Plain for u8 {}

impl Plain for u64 {}

/// So many numbers, zeros at first.
pub struct Reserved<T: Plain> {
    start: *mut c_void,
    length: usize,
    numbers: PhantomData<T>,
}

impl<T: Plain> Reserved<T> {
    /// Room for n numbers, none of it touched; nothing where there is not so much.
    pub fn of(n: usize) -> Option<Reserved<T>> {
        let bytes = n.max(1).checked_mul(mem::size_of::<T>())?;
        let flags = MAP_PRIVATE | MAP_ANONYMOUS | MAP_NORESERVE;
        // SAFETY: a new mapping at a place that the system chooses overlaps no memory in use.
        let start = unsafe { mmap(ptr::null_mut(), bytes, PROT_READ_WRITE, flags, -1, 0) };
        (start as isize != -1).then_some(Reserved {
            start,
            length: n,
            numbers: PhantomData,
        })
    }

    /// The same for what is going to be written from its start on: memory comes in large pages, if
    /// the system has them, so that a long output takes fewer of them, and less time.
    pub fn for_writing(n: usize) -> Option<Reserved<T>> {
        let reserved = Reserved::of(n)?;
        // SAFETY: so many bytes were just mapped. It is advice: whether it is taken does not
        // matter.
        unsafe { madvise(reserved.start, reserved.size(), MADV_HUGEPAGE) };
        Some(reserved)
    }

    /// How many bytes are mapped.
    fn size(&self) -> usize {
        self.length.max(1) * mem::size_of::<T>()
    }

    /// All of them.
    pub fn all(&self) -> &[T] {
        // SAFETY: so many numbers are mapped until this is dropped, at the start of a page of
        // memory, and any bytes are a number.
        unsafe { slice::from_raw_parts(self.start.cast(), self.length) }
    }

    /// All of them, to be written.
    pub fn all_mut(&mut self) -> &mut [T] {
        // SAFETY: as in `all`, and this is borrowed mutably.
        unsafe { slice::from_raw_parts_mut(self.start.cast(), self.length) }
    }
}

impl<T: Plain> Drop for Reserved<T> {
    fn drop(&mut self) {
        // SAFETY: the bytes were mapped by `of`, and what borrowed them is gone.
        unsafe { munmap(self.start, self.size()) };
    }
}
