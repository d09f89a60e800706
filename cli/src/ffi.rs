//! The functions of include/embulgri.h, on slices, which are safe to call, and reserved memory: all
//! unsafe code of the wrapper.
//!
//! Why each call is safe: a slice goes as its own pointer, which is never null, also where it is
//! empty, and its own length; an array has as many places as are read or written, by its type; all
//! that is written is borrowed mutably, so that it overlaps nothing; and the library keeps no
//! pointer.

mod c;
pub mod headers;
pub mod lines;
pub mod pages;
mod reserved;

pub use reserved::Reserved;

pub fn start(state: &mut [u64; 16]) {
    // SAFETY: see the top of this module.
    unsafe {
        c::embulgri_start(state.as_mut_ptr());
    }
}

pub fn open(fields: &[u64; 8], mapping: &[u8; 255], state: &mut [u64; 16]) -> u32 {
    // SAFETY: see the top of this module.
    unsafe { c::embulgri_open(fields.as_ptr(), mapping.as_ptr(), state.as_mut_ptr()) }
}

pub fn clock_add(reading: &mut f32, count: &mut u64, length: u64) -> u32 {
    // SAFETY: see the top of this module.
    unsafe { c::embulgri_clock_add(reading, count, length) }
}

pub fn feed(
    state: &mut [u64; 16],
    page: &[u8],
    carry: &mut [u8],
    ends: &mut [u64],
    lengths: &mut [u64],
    kept: &mut [u64],
    frames: &mut [u64],
    page_out: &mut [u64; 6],
) -> u32 {
    // SAFETY: see the top of this module.
    unsafe {
        c::embulgri_feed(
            state.as_mut_ptr(),
            page.as_ptr(),
            page.len(),
            carry.as_mut_ptr(),
            carry.len(),
            ends.as_mut_ptr(),
            ends.len(),
            lengths.as_mut_ptr(),
            lengths.len(),
            kept.as_mut_ptr(),
            kept.len(),
            frames.as_mut_ptr(),
            frames.len(),
            page_out.as_mut_ptr(),
        )
    }
}

pub fn program_feed(
    state: &mut [u64; 16],
    bytes: &[u8],
    carry: &mut [u8],
    ends: &mut [u64],
    lengths: &mut [u64],
    kept: &mut [u64],
    frames: &mut [u64],
    out: &mut [u64; 4],
) -> u32 {
    // SAFETY: see the top of this module.
    unsafe {
        c::embulgri_program_feed(
            state.as_mut_ptr(),
            bytes.as_ptr(),
            bytes.len(),
            carry.as_mut_ptr(),
            carry.len(),
            ends.as_mut_ptr(),
            ends.len(),
            lengths.as_mut_ptr(),
            lengths.len(),
            kept.as_mut_ptr(),
            kept.len(),
            frames.as_mut_ptr(),
            frames.len(),
            out.as_mut_ptr(),
        )
    }
}

pub fn index_count(stream: &[u8]) -> u64 {
    // SAFETY: see the top of this module.
    unsafe { c::embulgri_index_count(stream.as_ptr(), stream.len()) }
}

pub fn index_build(
    stream: &[u8],
    granules: &mut [u64],
    places: &mut [u64],
    sequences: &mut [u32],
    count: &mut u64,
) -> u32 {
    // SAFETY: see the top of this module.
    unsafe {
        c::embulgri_index_build(
            stream.as_ptr(),
            stream.len(),
            granules.as_mut_ptr(),
            granules.len(),
            places.as_mut_ptr(),
            places.len(),
            sequences.as_mut_ptr(),
            sequences.len(),
            count,
        )
    }
}

pub fn index_seek(
    granules: &[u64],
    places: &[u64],
    sequences: &[u32],
    target: u64,
    out: &mut [u64; 3],
    place: &mut u64,
) -> u32 {
    // SAFETY: see the top of this module.
    unsafe {
        c::embulgri_index_seek(
            granules.as_ptr(),
            granules.len(),
            places.as_ptr(),
            places.len(),
            sequences.as_ptr(),
            sequences.len(),
            target,
            out.as_mut_ptr(),
            place,
        )
    }
}

pub fn salvage(
    bytes: &[u8],
    work: &mut [u64],
    out: &mut [u8],
    what: &mut [u64],
    places: &mut [u64],
    sizes: &mut [u64],
    counts: &mut [u64; 2],
) -> u32 {
    // SAFETY: see the top of this module.
    unsafe {
        c::embulgri_salvage(
            bytes.as_ptr(),
            bytes.len(),
            work.as_mut_ptr(),
            work.len(),
            out.as_mut_ptr(),
            out.len(),
            what.as_mut_ptr(),
            what.len(),
            places.as_mut_ptr(),
            places.len(),
            sizes.as_mut_ptr(),
            sizes.len(),
            counts.as_mut_ptr(),
        )
    }
}

pub fn crop(stream: &[u8], page: u64, out: &mut [u8], written: &mut u64) -> u32 {
    // SAFETY: see the top of this module.
    unsafe {
        c::embulgri_crop(
            stream.as_ptr(),
            stream.len(),
            page,
            out.as_mut_ptr(),
            out.len(),
            written,
        )
    }
}

pub fn crop_start(stream: &[u8], last: u64, position: u64, start: &mut [u64; 2]) -> u32 {
    // SAFETY: see the top of this module.
    unsafe {
        c::embulgri_crop_start(
            stream.as_ptr(),
            stream.len(),
            last,
            position,
            start.as_mut_ptr(),
        )
    }
}

pub fn check(stream: &[u8], kinds: &mut [u64], pages: &mut [u64], count: &mut u64) -> u32 {
    // SAFETY: see the top of this module.
    unsafe {
        c::embulgri_check(
            stream.as_ptr(),
            stream.len(),
            kinds.as_mut_ptr(),
            kinds.len(),
            pages.as_mut_ptr(),
            pages.len(),
            count,
        )
    }
}
