//! The part of the C interface (include/embulgri.h) that builds an index and seeks in it, with safe
//! wrappers on slices as in [`crate::ffi`].

use crate::index::{Columns, Index};

extern "C" {
    fn embulgri_index_count(stream: *const u8, n: usize) -> u64;
    fn embulgri_index_build(
        stream: *const u8,
        n: usize,
        granules: *mut u64,
        granules_n: usize,
        places: *mut u64,
        places_n: usize,
        sequences: *mut u32,
        sequences_n: usize,
        count: *mut u64,
    ) -> u32;
    fn embulgri_index_seek(
        granules: *const u64,
        granules_n: usize,
        places: *const u64,
        places_n: usize,
        sequences: *const u32,
        sequences_n: usize,
        target: u64,
        out: *mut u64,
        place: *mut u64,
    ) -> u32;
}

pub fn count(stream: &[u8]) -> u64 {
    // SAFETY: the pointer and the length are those of one slice.
    unsafe { embulgri_index_count(stream.as_ptr(), stream.len()) }
}

pub fn build(stream: &[u8], lent: Columns, count: &mut u64) -> u32 {
    // SAFETY: each pointer goes with the length of its own slice; all but the stream are borrowed
    // mutably, so they overlap nothing.
    unsafe {
        embulgri_index_build(
            stream.as_ptr(),
            stream.len(),
            lent.granules.as_mut_ptr(),
            lent.granules.len(),
            lent.places.as_mut_ptr(),
            lent.places.len(),
            lent.sequences.as_mut_ptr(),
            lent.sequences.len(),
            count,
        )
    }
}

pub fn seek(index: &Index, target: u64, out: &mut [u64; 3], place: &mut u64) -> u32 {
    // SAFETY: each pointer goes with the length of its own slice; `out`, which has the three places
    // that are written, and `place` are borrowed mutably, so they overlap nothing.
    unsafe {
        embulgri_index_seek(
            index.granules.as_ptr(),
            index.granules.len(),
            index.places.as_ptr(),
            index.places.len(),
            index.sequences.as_ptr(),
            index.sequences.len(),
            target,
            out.as_mut_ptr(),
            place,
        )
    }
}
