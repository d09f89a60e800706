//! The part of the C interface (include/embulgri.h) that checks a stream for what its writer did, with a
//! safe wrapper on slices as in [`crate::ffi`].

extern "C" {
    fn embulgri_check(
        stream: *const u8,
        n: usize,
        kinds: *mut u64,
        kinds_n: usize,
        pages: *mut u64,
        pages_n: usize,
        count: *mut u64,
    ) -> u32;
}

pub fn check(stream: &[u8], [kinds, pages]: [&mut [u64]; 2], count: &mut u64) -> u32 {
    // SAFETY: each pointer goes with the length of its own slice; all but the stream are borrowed
    // mutably, so they overlap nothing.
    unsafe {
        embulgri_check(
            stream.as_ptr(),
            stream.len(),
            kinds.as_mut_ptr(),
            kinds.len(),
            pages.as_mut_ptr(),
            pages.len(),
            count,
        )
    }
}
