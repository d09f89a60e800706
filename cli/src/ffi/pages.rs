//! Those of pages and of packets.

use super::c;

pub fn checksum(bytes: &[u8]) -> u32 {
    // SAFETY: see the top of the module above.
    unsafe { c::embulgri_checksum(bytes.as_ptr(), bytes.len()) }
}

pub fn page_read(page: &[u8], out: &mut [u64; 6]) -> u32 {
    // SAFETY: see the top of the module above.
    unsafe { c::embulgri_page_read(page.as_ptr(), page.len(), out.as_mut_ptr()) }
}

pub fn page_write(
    flags: u64,
    granule: u64,
    serial: u32,
    sequence: u32,
    lacing: &[u8],
    body: &[u8],
    out: &mut [u8],
    written: &mut u64,
) -> u32 {
    // SAFETY: see the top of the module above.
    unsafe {
        c::embulgri_page_write(
            flags,
            granule,
            serial,
            sequence,
            lacing.as_ptr(),
            lacing.len(),
            body.as_ptr(),
            body.len(),
            out.as_mut_ptr(),
            out.len(),
            written,
        )
    }
}

pub fn page_end(bytes: &[u8], at: u64) -> u64 {
    // SAFETY: see the top of the module above.
    unsafe { c::embulgri_page_end(bytes.as_ptr(), bytes.len(), at) }
}

pub fn next_page(bytes: &[u8], from: u64) -> u64 {
    // SAFETY: see the top of the module above.
    unsafe { c::embulgri_next_page(bytes.as_ptr(), bytes.len(), from) }
}

pub fn judge(stream: &[u8], page: &mut u64) -> u32 {
    // SAFETY: see the top of the module above.
    unsafe { c::embulgri_judge(stream.as_ptr(), stream.len(), page) }
}

pub fn packet_read(packet: &[u8], streams: u64, out: &mut [u64; 4]) -> u32 {
    // SAFETY: see the top of the module above.
    unsafe { c::embulgri_packet_read(packet.as_ptr(), packet.len(), streams, out.as_mut_ptr()) }
}
