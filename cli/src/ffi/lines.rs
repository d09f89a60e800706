//! Those that put lines.

use super::c;

pub fn salvage_line(what: u64, place: u64, bytes: u64, out: &mut [u8], at: u64) -> u64 {
    // SAFETY: see the top of the module above.
    unsafe { c::embulgri_salvage_line(what, place, bytes, out.as_mut_ptr(), out.len(), at) }
}

pub fn list_first(out: &mut [u8], at: u64) -> u64 {
    // SAFETY: see the top of the module above.
    unsafe { c::embulgri_list_first(out.as_mut_ptr(), out.len(), at) }
}

pub fn list_total(state: &[u64; 16], out: &mut [u8], at: u64) -> u64 {
    // SAFETY: see the top of the module above.
    unsafe { c::embulgri_list_total(state.as_ptr(), out.as_mut_ptr(), out.len(), at) }
}

pub fn list_refused(number: u64, page: u64, out: &mut [u8], at: u64) -> u64 {
    // SAFETY: see the top of the module above.
    unsafe { c::embulgri_list_refused(number, page, out.as_mut_ptr(), out.len(), at) }
}

pub fn list_entries(
    ends: &[u64],
    lengths: &[u64],
    frames: &[u64],
    kept: &[u64],
    out: &mut [u8],
    at: u64,
    put: &mut [u64; 2],
) {
    // SAFETY: see the top of the module above.
    unsafe {
        c::embulgri_list_entries(
            ends.as_ptr(),
            ends.len(),
            lengths.as_ptr(),
            lengths.len(),
            frames.as_ptr(),
            frames.len(),
            kept.as_ptr(),
            kept.len(),
            out.as_mut_ptr(),
            out.len(),
            at,
            put.as_mut_ptr(),
        );
    }
}

pub fn header_lines(head: &[u8], tags: &[u8], out: &mut [u8], written: &mut u64) -> u32 {
    // SAFETY: see the top of the module above.
    unsafe {
        c::embulgri_header_lines(
            head.as_ptr(),
            head.len(),
            tags.as_ptr(),
            tags.len(),
            out.as_mut_ptr(),
            out.len(),
            written,
        )
    }
}

pub fn index_first(out: &mut [u8], at: u64) -> u64 {
    // SAFETY: see the top of the module above.
    unsafe { c::embulgri_index_first(out.as_mut_ptr(), out.len(), at) }
}

pub fn index_records(
    granules: &[u64],
    places: &[u64],
    sequences: &[u32],
    out: &mut [u8],
    at: u64,
    put: &mut [u64; 2],
) {
    // SAFETY: see the top of the module above.
    unsafe {
        c::embulgri_index_records(
            granules.as_ptr(),
            granules.len(),
            places.as_ptr(),
            places.len(),
            sequences.as_ptr(),
            sequences.len(),
            out.as_mut_ptr(),
            out.len(),
            at,
            put.as_mut_ptr(),
        );
    }
}

pub fn index_refused(number: u64, out: &mut [u8], at: u64) -> u64 {
    // SAFETY: see the top of the module above.
    unsafe { c::embulgri_index_refused(number, out.as_mut_ptr(), out.len(), at) }
}

pub fn seek_first(out: &mut [u8], at: u64) -> u64 {
    // SAFETY: see the top of the module above.
    unsafe { c::embulgri_seek_first(out.as_mut_ptr(), out.len(), at) }
}

pub fn seek_found(
    granule: u64,
    place: u64,
    sequence: u32,
    probes: u64,
    out: &mut [u8],
    at: u64,
) -> u64 {
    // SAFETY: see the top of the module above.
    unsafe {
        c::embulgri_seek_found(
            granule,
            place,
            sequence,
            probes,
            out.as_mut_ptr(),
            out.len(),
            at,
        )
    }
}

pub fn seek_begin(probes: u64, out: &mut [u8], at: u64) -> u64 {
    // SAFETY: see the top of the module above.
    unsafe { c::embulgri_seek_begin(probes, out.as_mut_ptr(), out.len(), at) }
}

pub fn seek_refused(number: u64, place: u64, out: &mut [u8], at: u64) -> u64 {
    // SAFETY: see the top of the module above.
    unsafe { c::embulgri_seek_refused(number, place, out.as_mut_ptr(), out.len(), at) }
}
