//! The part of the C interface (include/embulgri.h) that crops a stream at a page, with safe wrappers on
//! slices as in [`crate::ffi`].

extern "C" {
    fn embulgri_crop(
        stream: *const u8,
        n: usize,
        page: u64,
        out: *mut u8,
        out_n: usize,
        written: *mut u64,
    ) -> u32;
    fn embulgri_crop_start(
        stream: *const u8,
        n: usize,
        last: u64,
        position: u64,
        start: *mut u64,
    ) -> u32;
}

pub fn crop(stream: &[u8], page: u64, out: &mut [u8], written: &mut u64) -> u32 {
    // SAFETY: each pointer goes with the length of its own slice; `out` and `written` are borrowed
    // mutably, so they overlap nothing.
    unsafe {
        embulgri_crop(
            stream.as_ptr(),
            stream.len(),
            page,
            out.as_mut_ptr(),
            out.len(),
            written,
        )
    }
}

pub fn crop_start(stream: &[u8], last: u64, position: u64, start: &mut [u64; 2]) -> u32 {
    // SAFETY: the pointer and the length are those of one slice; `start` has the two places that are
    // written, and is borrowed mutably.
    unsafe {
        embulgri_crop_start(
            stream.as_ptr(),
            stream.len(),
            last,
            position,
            start.as_mut_ptr(),
        )
    }
}
