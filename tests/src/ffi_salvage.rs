//! The part of the C interface (include/embulgri.h) that salvages a damaged stream, with a safe
//! wrapper on slices as in [`crate::ffi`].

use crate::salvage::COLUMNS;

extern "C" {
    fn embulgri_salvage(
        bytes: *const u8,
        n: usize,
        work: *mut u64,
        work_n: usize,
        out: *mut u8,
        out_n: usize,
        what: *mut u64,
        what_n: usize,
        places: *mut u64,
        places_n: usize,
        sizes: *mut u64,
        sizes_n: usize,
        counts: *mut u64,
    ) -> u32;
}

/// The memory that a call is lent.
pub struct Lent<'a> {
    pub work: &'a mut [u64],
    pub output: &'a mut [u8],
    /// What, places and bytes of the lines.
    pub columns: [&'a mut [u64]; COLUMNS],
}

pub fn salvage(bytes: &[u8], lent: Lent, counts: &mut [u64; 2]) -> u32 {
    let [what, places, sizes] = lent.columns;
    // SAFETY: each pointer goes with the length of its own slice, and `counts` has the two places
    // that are written; all but the bytes are borrowed mutably, so they overlap nothing.
    unsafe {
        embulgri_salvage(
            bytes.as_ptr(),
            bytes.len(),
            lent.work.as_mut_ptr(),
            lent.work.len(),
            lent.output.as_mut_ptr(),
            lent.output.len(),
            what.as_mut_ptr(),
            what.len(),
            places.as_mut_ptr(),
            places.len(),
            sizes.as_mut_ptr(),
            sizes.len(),
            counts.as_mut_ptr(),
        )
    }
}
