//! The C interface (include/embulgri.h) with safe wrappers on slices. A slice's pointer is never
//! null, also where its length is 0, and the borrow rules keep the buffers from overlapping.

use crate::feeding::Lent;
use crate::head::{Head, PLACES};
use crate::ogg::Page;
use crate::reader::NUMBERS;
use crate::tags::JoinedTags;

extern "C" {
    fn embulgri_checksum(bytes: *const u8, n: usize) -> u32;
    fn embulgri_page_read(page: *const u8, n: usize, out: *mut u64) -> u32;
    fn embulgri_page_write(
        flags: u64,
        granule: u64,
        serial: u32,
        sequence: u32,
        lacing: *const u8,
        lacing_n: usize,
        body: *const u8,
        body_n: usize,
        out: *mut u8,
        out_n: usize,
        written: *mut u64,
    ) -> u32;
    fn embulgri_packet_read(packet: *const u8, n: usize, streams: u64, out: *mut u64) -> u32;
    fn embulgri_head_read(packet: *const u8, n: usize, fields: *mut u64, mapping: *mut u8) -> u32;
    fn embulgri_head_write(
        fields: *const u64,
        mapping: *const u8,
        matrix: *const u8,
        matrix_n: usize,
        out: *mut u8,
        out_n: usize,
        written: *mut u64,
    ) -> u32;
    fn embulgri_head_matrix(packet: *const u8, n: usize, part: *mut u64) -> u32;
    fn embulgri_head_matrix_entry(packet: *const u8, n: usize, i: u64, value: *mut u64) -> u32;
    fn embulgri_tags_read(packet: *const u8, n: usize, count: *mut u64) -> u32;
    fn embulgri_tags_vendor(packet: *const u8, n: usize, part: *mut u64) -> u32;
    fn embulgri_tags_comment(packet: *const u8, n: usize, i: u64, part: *mut u64) -> u32;
    fn embulgri_tags_gain(packet: *const u8, n: usize, i: u64, gain: *mut u64) -> u32;
    fn embulgri_tags_write(
        vendor: *const u8,
        vendor_n: usize,
        text: *const u8,
        text_n: usize,
        lengths: *const u64,
        lengths_n: usize,
        out: *mut u8,
        out_n: usize,
        written: *mut u64,
    ) -> u32;
    fn embulgri_clock_add(reading: *mut f32, count: *mut u64, length: u64) -> u32;
    fn embulgri_start(state: *mut u64);
    fn embulgri_open(fields: *const u64, mapping: *const u8, state: *mut u64) -> u32;
    fn embulgri_feed(
        state: *mut u64,
        page: *const u8,
        n: usize,
        carry: *mut u8,
        carry_n: usize,
        ends: *mut u64,
        ends_n: usize,
        lengths: *mut u64,
        lengths_n: usize,
        kept: *mut u64,
        kept_n: usize,
        frames: *mut u64,
        frames_n: usize,
        page_out: *mut u64,
    ) -> u32;
    fn embulgri_feed_pages(
        state: *mut u64,
        bytes: *const u8,
        n: usize,
        carry: *mut u8,
        carry_n: usize,
        ends: *mut u64,
        ends_n: usize,
        lengths: *mut u64,
        lengths_n: usize,
        kept: *mut u64,
        kept_n: usize,
        frames: *mut u64,
        frames_n: usize,
        out: *mut u64,
    ) -> u32;
    fn embulgri_next_page(bytes: *const u8, n: usize, from: u64) -> u64;
    fn embulgri_judge(stream: *const u8, n: usize, page: *mut u64) -> u32;
    fn embulgri_page_end(bytes: *const u8, n: usize, at: u64) -> u64;
}

pub fn checksum(bytes: &[u8]) -> u32 {
    // SAFETY: the pointer and the length are those of one slice.
    unsafe { embulgri_checksum(bytes.as_ptr(), bytes.len()) }
}

pub fn page_read(page: &[u8], out: &mut [u64; 6]) -> u32 {
    // SAFETY: the pointer and the length are those of one slice; `out` has the six places that are
    // written.
    unsafe { embulgri_page_read(page.as_ptr(), page.len(), out.as_mut_ptr()) }
}

pub fn page_write(page: &Page, out: &mut [u8], written: &mut u64) -> u32 {
    // SAFETY: each pointer goes with the length of its own slice; `out` and `written` are borrowed
    // mutably, so they overlap nothing.
    unsafe {
        embulgri_page_write(
            page.flags,
            page.granule,
            page.serial,
            page.sequence,
            page.lacing.as_ptr(),
            page.lacing.len(),
            page.body.as_ptr(),
            page.body.len(),
            out.as_mut_ptr(),
            out.len(),
            written,
        )
    }
}

pub fn packet_read(packet: &[u8], streams: u64, out: &mut [u64; 4]) -> u32 {
    // SAFETY: the pointer and the length are those of one slice; `out` has the four places that are
    // written.
    unsafe { embulgri_packet_read(packet.as_ptr(), packet.len(), streams, out.as_mut_ptr()) }
}

pub fn head_read(packet: &[u8], fields: &mut [u64; 8], mapping: &mut [u8; PLACES]) -> u32 {
    // SAFETY: the pointer and the length are those of one slice; `fields` and `mapping` have the
    // places that are written.
    unsafe {
        embulgri_head_read(
            packet.as_ptr(),
            packet.len(),
            fields.as_mut_ptr(),
            mapping.as_mut_ptr(),
        )
    }
}

pub fn head_write(head: &Head, out: &mut [u8], written: &mut u64) -> u32 {
    // SAFETY: the fields and the mapping have the places that are read; the matrix and `out` go each
    // with the length of its own slice; `out` and `written` are borrowed mutably, so they overlap
    // nothing.
    unsafe {
        embulgri_head_write(
            head.fields().as_ptr(),
            head.mapping.as_ptr(),
            head.matrix.as_ptr(),
            head.matrix.len(),
            out.as_mut_ptr(),
            out.len(),
            written,
        )
    }
}

pub fn head_matrix(packet: &[u8], part: &mut [u64; 2]) -> u32 {
    // SAFETY: the pointer and the length are those of one slice; `part` has the two places that are
    // written.
    unsafe { embulgri_head_matrix(packet.as_ptr(), packet.len(), part.as_mut_ptr()) }
}

pub fn head_matrix_entry(packet: &[u8], number: u64, value: &mut u64) -> u32 {
    // SAFETY: the pointer and the length are those of one slice; `value` is the one place that is
    // written.
    unsafe { embulgri_head_matrix_entry(packet.as_ptr(), packet.len(), number, value) }
}

pub fn tags_read(packet: &[u8], count: &mut u64) -> u32 {
    // SAFETY: the pointer and the length are those of one slice; `count` is the one place that is
    // written.
    unsafe { embulgri_tags_read(packet.as_ptr(), packet.len(), count) }
}

pub fn tags_vendor(packet: &[u8], part: &mut [u64; 2]) -> u32 {
    // SAFETY: the pointer and the length are those of one slice; `part` has the two places that are
    // written.
    unsafe { embulgri_tags_vendor(packet.as_ptr(), packet.len(), part.as_mut_ptr()) }
}

pub fn tags_comment(packet: &[u8], number: u64, part: &mut [u64; 2]) -> u32 {
    // SAFETY: the pointer and the length are those of one slice; `part` has the two places that are
    // written.
    unsafe { embulgri_tags_comment(packet.as_ptr(), packet.len(), number, part.as_mut_ptr()) }
}

pub fn tags_gain(packet: &[u8], number: u64, gain: &mut u64) -> u32 {
    // SAFETY: the pointer and the length are those of one slice; `gain` is the one place that is
    // written.
    unsafe { embulgri_tags_gain(packet.as_ptr(), packet.len(), number, gain) }
}

pub fn tags_write(joined: &JoinedTags, out: &mut [u8], written: &mut u64) -> u32 {
    // SAFETY: each pointer goes with the length of its own slice; `out` and `written` are borrowed
    // mutably, so they overlap nothing.
    unsafe {
        embulgri_tags_write(
            joined.vendor.as_ptr(),
            joined.vendor.len(),
            joined.text.as_ptr(),
            joined.text.len(),
            joined.lengths.as_ptr(),
            joined.lengths.len(),
            out.as_mut_ptr(),
            out.len(),
            written,
        )
    }
}

pub fn clock_add(reading: &mut f32, count: &mut u64, length: u64) -> u32 {
    // SAFETY: `reading` and `count` are the two places that are written.
    unsafe { embulgri_clock_add(reading, count, length) }
}

pub fn start(state: &mut [u64; NUMBERS]) {
    // SAFETY: `state` has the sixteen places that are written.
    unsafe { embulgri_start(state.as_mut_ptr()) }
}

pub fn open(head: &Head, state: &mut [u64; NUMBERS]) -> u32 {
    // SAFETY: the fields and the mapping have the places that are read; `state` has the sixteen
    // places that are written.
    unsafe {
        embulgri_open(
            head.fields().as_ptr(),
            head.mapping.as_ptr(),
            state.as_mut_ptr(),
        )
    }
}

pub fn feed(state: &mut [u64; NUMBERS], page: &[u8], lent: Lent, out: &mut [u64; 6]) -> u32 {
    let [ends, lengths, kept, frames] = lent.lists;
    // SAFETY: each pointer goes with the length of its own slice, and `state` and `out` have the
    // places that are written; all but the page are borrowed mutably, so they overlap nothing.
    unsafe {
        embulgri_feed(
            state.as_mut_ptr(),
            page.as_ptr(),
            page.len(),
            lent.carry.as_mut_ptr(),
            lent.carry.len(),
            ends.as_mut_ptr(),
            ends.len(),
            lengths.as_mut_ptr(),
            lengths.len(),
            kept.as_mut_ptr(),
            kept.len(),
            frames.as_mut_ptr(),
            frames.len(),
            out.as_mut_ptr(),
        )
    }
}

pub fn feed_pages(state: &mut [u64; NUMBERS], bytes: &[u8], lent: Lent, out: &mut [u64; 4]) -> u32 {
    let [ends, lengths, kept, frames] = lent.lists;
    // SAFETY: as for feeding one page.
    unsafe {
        embulgri_feed_pages(
            state.as_mut_ptr(),
            bytes.as_ptr(),
            bytes.len(),
            lent.carry.as_mut_ptr(),
            lent.carry.len(),
            ends.as_mut_ptr(),
            ends.len(),
            lengths.as_mut_ptr(),
            lengths.len(),
            kept.as_mut_ptr(),
            kept.len(),
            frames.as_mut_ptr(),
            frames.len(),
            out.as_mut_ptr(),
        )
    }
}

pub fn page_end(bytes: &[u8], at: u64) -> u64 {
    // SAFETY: the pointer and the length are those of one slice.
    unsafe { embulgri_page_end(bytes.as_ptr(), bytes.len(), at) }
}

pub fn judge(stream: &[u8], page: &mut u64) -> u32 {
    // SAFETY: the pointer and the length are those of one slice; `page` is borrowed mutably.
    unsafe { embulgri_judge(stream.as_ptr(), stream.len(), page) }
}

pub fn next_page(bytes: &[u8], from: u64) -> u64 {
    // SAFETY: the pointer and the length are those of one slice.
    unsafe { embulgri_next_page(bytes.as_ptr(), bytes.len(), from) }
}
