//! The part of the C interface (include/embulgri.h) that gives text, with safe wrappers on slices as
//! in [`crate::ffi`].

use crate::index::Index;
use crate::lines::Packets;
use crate::reader::NUMBERS;

extern "C" {
    fn embulgri_list_first(out: *mut u8, out_n: usize, at: u64) -> u64;
    fn embulgri_list_total(state: *const u64, out: *mut u8, out_n: usize, at: u64) -> u64;
    fn embulgri_list_refused(number: u64, page: u64, out: *mut u8, out_n: usize, at: u64) -> u64;
    fn embulgri_list_entries(
        ends: *const u64,
        ends_n: usize,
        lengths: *const u64,
        lengths_n: usize,
        frames: *const u64,
        frames_n: usize,
        kept: *const u64,
        kept_n: usize,
        out: *mut u8,
        out_n: usize,
        at: u64,
        put: *mut u64,
    );
    fn embulgri_header_lines(
        head: *const u8,
        head_n: usize,
        tags: *const u8,
        tags_n: usize,
        out: *mut u8,
        out_n: usize,
        written: *mut u64,
    ) -> u32;
    fn embulgri_index_first(out: *mut u8, out_n: usize, at: u64) -> u64;
    fn embulgri_index_records(
        granules: *const u64,
        granules_n: usize,
        places: *const u64,
        places_n: usize,
        sequences: *const u32,
        sequences_n: usize,
        out: *mut u8,
        out_n: usize,
        at: u64,
        put: *mut u64,
    );
    fn embulgri_seek_first(out: *mut u8, out_n: usize, at: u64) -> u64;
    fn embulgri_seek_found(
        granule: u64,
        place: u64,
        sequence: u32,
        probes: u64,
        out: *mut u8,
        out_n: usize,
        at: u64,
    ) -> u64;
    fn embulgri_index_refused(number: u64, out: *mut u8, out_n: usize, at: u64) -> u64;
    fn embulgri_seek_begin(probes: u64, out: *mut u8, out_n: usize, at: u64) -> u64;
    fn embulgri_seek_refused(number: u64, place: u64, out: *mut u8, out_n: usize, at: u64) -> u64;
}

pub fn list_first(out: &mut [u8], at: u64) -> u64 {
    // SAFETY: the pointer and the length are those of one slice.
    unsafe { embulgri_list_first(out.as_mut_ptr(), out.len(), at) }
}

pub fn list_total(state: &[u64; NUMBERS], out: &mut [u8], at: u64) -> u64 {
    // SAFETY: the pointer and the length are those of one slice; `state` has the sixteen places that
    // are read.
    unsafe { embulgri_list_total(state.as_ptr(), out.as_mut_ptr(), out.len(), at) }
}

pub fn list_refused(number: u64, page: u64, out: &mut [u8], at: u64) -> u64 {
    // SAFETY: the pointer and the length are those of one slice.
    unsafe { embulgri_list_refused(number, page, out.as_mut_ptr(), out.len(), at) }
}

pub fn list_entries(packets: &Packets, out: &mut [u8], at: u64, put: &mut [u64; 2]) {
    // SAFETY: each pointer goes with the length of its own slice; `out` and `put`, which has the two
    // places that are written, are borrowed mutably, so they overlap nothing.
    unsafe {
        embulgri_list_entries(
            packets.ends.as_ptr(),
            packets.ends.len(),
            packets.lengths.as_ptr(),
            packets.lengths.len(),
            packets.frames.as_ptr(),
            packets.frames.len(),
            packets.kept.as_ptr(),
            packets.kept.len(),
            out.as_mut_ptr(),
            out.len(),
            at,
            put.as_mut_ptr(),
        )
    }
}

pub fn header_lines(head: &[u8], tags: &[u8], out: &mut [u8], written: &mut u64) -> u32 {
    // SAFETY: each pointer goes with the length of its own slice; `out` and `written` are borrowed
    // mutably, so they overlap nothing.
    unsafe {
        embulgri_header_lines(
            head.as_ptr(),
            head.len(),
            tags.as_ptr(),
            tags.len(),
            out.as_mut_ptr(),
            out.len(),
            written,
        )
    }
}

pub fn index_first(out: &mut [u8], at: u64) -> u64 {
    // SAFETY: the pointer and the length are those of one slice.
    unsafe { embulgri_index_first(out.as_mut_ptr(), out.len(), at) }
}

pub fn index_records(index: &Index, out: &mut [u8], at: u64, put: &mut [u64; 2]) {
    // SAFETY: each pointer goes with the length of its own slice; `out` and `put`, which has the two
    // places that are written, are borrowed mutably, so they overlap nothing.
    unsafe {
        embulgri_index_records(
            index.granules.as_ptr(),
            index.granules.len(),
            index.places.as_ptr(),
            index.places.len(),
            index.sequences.as_ptr(),
            index.sequences.len(),
            out.as_mut_ptr(),
            out.len(),
            at,
            put.as_mut_ptr(),
        )
    }
}

pub fn seek_first(out: &mut [u8], at: u64) -> u64 {
    // SAFETY: the pointer and the length are those of one slice.
    unsafe { embulgri_seek_first(out.as_mut_ptr(), out.len(), at) }
}

/// Of a record, its granule position, its place and the number of probes, and its sequence number.
pub fn seek_found(
    [granule, place, probes]: [u64; 3],
    sequence: u32,
    out: &mut [u8],
    at: u64,
) -> u64 {
    let (start, length) = (out.as_mut_ptr(), out.len());
    // SAFETY: the pointer and the length are those of one slice.
    unsafe { embulgri_seek_found(granule, place, sequence, probes, start, length, at) }
}

pub fn index_refused(number: u64, out: &mut [u8], at: u64) -> u64 {
    // SAFETY: the pointer and the length are those of one slice.
    unsafe { embulgri_index_refused(number, out.as_mut_ptr(), out.len(), at) }
}

pub fn seek_begin(probes: u64, out: &mut [u8], at: u64) -> u64 {
    // SAFETY: the pointer and the length are those of one slice.
    unsafe { embulgri_seek_begin(probes, out.as_mut_ptr(), out.len(), at) }
}

pub fn seek_refused(number: u64, place: u64, out: &mut [u8], at: u64) -> u64 {
    // SAFETY: the pointer and the length are those of one slice.
    unsafe { embulgri_seek_refused(number, place, out.as_mut_ptr(), out.len(), at) }
}
