//! Those of identification headers and of comment headers.

use super::c;

pub fn head_read(packet: &[u8], fields: &mut [u64; 8], mapping: &mut [u8; 255]) -> u32 {
    // SAFETY: see the top of the module above.
    unsafe {
        c::embulgri_head_read(
            packet.as_ptr(),
            packet.len(),
            fields.as_mut_ptr(),
            mapping.as_mut_ptr(),
        )
    }
}

pub fn head_write(
    fields: &[u64; 8],
    mapping: &[u8; 255],
    matrix: &[u8],
    out: &mut [u8],
    written: &mut u64,
) -> u32 {
    // SAFETY: see the top of the module above.
    unsafe {
        c::embulgri_head_write(
            fields.as_ptr(),
            mapping.as_ptr(),
            matrix.as_ptr(),
            matrix.len(),
            out.as_mut_ptr(),
            out.len(),
            written,
        )
    }
}

pub fn head_matrix(packet: &[u8], part: &mut [u64; 2]) -> u32 {
    // SAFETY: see the top of the module above.
    unsafe { c::embulgri_head_matrix(packet.as_ptr(), packet.len(), part.as_mut_ptr()) }
}

pub fn head_matrix_entry(packet: &[u8], i: u64, value: &mut u64) -> u32 {
    // SAFETY: see the top of the module above.
    unsafe { c::embulgri_head_matrix_entry(packet.as_ptr(), packet.len(), i, value) }
}

pub fn tags_read(packet: &[u8], count: &mut u64) -> u32 {
    // SAFETY: see the top of the module above.
    unsafe { c::embulgri_tags_read(packet.as_ptr(), packet.len(), count) }
}

pub fn tags_vendor(packet: &[u8], part: &mut [u64; 2]) -> u32 {
    // SAFETY: see the top of the module above.
    unsafe { c::embulgri_tags_vendor(packet.as_ptr(), packet.len(), part.as_mut_ptr()) }
}

pub fn tags_comment(packet: &[u8], i: u64, part: &mut [u64; 2]) -> u32 {
    // SAFETY: see the top of the module above.
    unsafe { c::embulgri_tags_comment(packet.as_ptr(), packet.len(), i, part.as_mut_ptr()) }
}

pub fn tags_gain(packet: &[u8], i: u64, gain: &mut u64) -> u32 {
    // SAFETY: see the top of the module above.
    unsafe { c::embulgri_tags_gain(packet.as_ptr(), packet.len(), i, gain) }
}

pub fn tags_write(
    vendor: &[u8],
    text: &[u8],
    lengths: &[u64],
    out: &mut [u8],
    written: &mut u64,
) -> u32 {
    // SAFETY: see the top of the module above.
    unsafe {
        c::embulgri_tags_write(
            vendor.as_ptr(),
            vendor.len(),
            text.as_ptr(),
            text.len(),
            lengths.as_ptr(),
            lengths.len(),
            out.as_mut_ptr(),
            out.len(),
            written,
        )
    }
}
