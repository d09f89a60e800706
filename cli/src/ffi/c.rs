//! The functions of include/embulgri.h, as C has them; `embulgri_program_feed` is
//! `embulgri_feed_pages` in a library of its own.

// SAFETY: each is declared as in the header, which says what it asks of its caller.
unsafe extern "C" {
    pub fn embulgri_checksum(bytes: *const u8, n: usize) -> u32;
    pub fn embulgri_page_read(page: *const u8, n: usize, out: *mut u64) -> u32;
    pub fn embulgri_page_write(
        flags: u64,
        granule: u64,
        serial: u32,
        sequence: u32,
        lacing: *const u8,
        lacing_n: usize,
        body: *const u8,
        body_n: usize,
        out: *mut u8,
        out_n: usize,
        written: *mut u64,
    ) -> u32;
    pub fn embulgri_packet_read(packet: *const u8, n: usize, streams: u64, out: *mut u64) -> u32;
    pub fn embulgri_head_read(
        packet: *const u8,
        n: usize,
        fields: *mut u64,
        mapping: *mut u8,
    ) -> u32;
    pub fn embulgri_head_write(
        fields: *const u64,
        mapping: *const u8,
        matrix: *const u8,
        matrix_n: usize,
        out: *mut u8,
        out_n: usize,
        written: *mut u64,
    ) -> u32;
    pub fn embulgri_head_matrix(packet: *const u8, n: usize, part: *mut u64) -> u32;
    pub fn embulgri_head_matrix_entry(packet: *const u8, n: usize, i: u64, value: *mut u64) -> u32;
    pub fn embulgri_tags_read(packet: *const u8, n: usize, count: *mut u64) -> u32;
    pub fn embulgri_tags_vendor(packet: *const u8, n: usize, part: *mut u64) -> u32;
    pub fn embulgri_tags_comment(packet: *const u8, n: usize, i: u64, part: *mut u64) -> u32;
    pub fn embulgri_tags_gain(packet: *const u8, n: usize, i: u64, gain: *mut u64) -> u32;
    pub fn embulgri_tags_write(
        vendor: *const u8,
        vendor_n: usize,
        text: *const u8,
        text_n: usize,
        lengths: *const u64,
        lengths_n: usize,
        out: *mut u8,
        out_n: usize,
        written: *mut u64,
    ) -> u32;
    pub fn embulgri_clock_add(reading: *mut f32, count: *mut u64, length: u64) -> u32;
    pub fn embulgri_start(state: *mut u64);
    pub fn embulgri_open(fields: *const u64, mapping: *const u8, state: *mut u64) -> u32;
    pub fn embulgri_page_end(bytes: *const u8, n: usize, at: u64) -> u64;
    pub fn embulgri_next_page(bytes: *const u8, n: usize, from: u64) -> u64;
    pub fn embulgri_judge(stream: *const u8, n: usize, page: *mut u64) -> u32;
    pub fn embulgri_feed(
        state: *mut u64,
        page: *const u8,
        n: usize,
        carry: *mut u8,
        carry_n: usize,
        ends: *mut u64,
        ends_n: usize,
        lengths: *mut u64,
        lengths_n: usize,
        kept: *mut u64,
        kept_n: usize,
        frames: *mut u64,
        frames_n: usize,
        page_out: *mut u64,
    ) -> u32;
    pub fn embulgri_program_feed(
        state: *mut u64,
        bytes: *const u8,
        n: usize,
        carry: *mut u8,
        carry_n: usize,
        ends: *mut u64,
        ends_n: usize,
        lengths: *mut u64,
        lengths_n: usize,
        kept: *mut u64,
        kept_n: usize,
        frames: *mut u64,
        frames_n: usize,
        out: *mut u64,
    ) -> u32;
    pub fn embulgri_index_count(stream: *const u8, n: usize) -> u64;
    pub fn embulgri_index_build(
        stream: *const u8,
        n: usize,
        granules: *mut u64,
        granules_n: usize,
        places: *mut u64,
        places_n: usize,
        sequences: *mut u32,
        sequences_n: usize,
        count: *mut u64,
    ) -> u32;
    pub fn embulgri_index_seek(
        granules: *const u64,
        granules_n: usize,
        places: *const u64,
        places_n: usize,
        sequences: *const u32,
        sequences_n: usize,
        target: u64,
        out: *mut u64,
        place: *mut u64,
    ) -> u32;
    pub fn embulgri_salvage(
        bytes: *const u8,
        n: usize,
        work: *mut u64,
        work_n: usize,
        out: *mut u8,
        out_n: usize,
        what: *mut u64,
        what_n: usize,
        places: *mut u64,
        places_n: usize,
        sizes: *mut u64,
        sizes_n: usize,
        counts: *mut u64,
    ) -> u32;
    pub fn embulgri_salvage_line(
        what: u64,
        place: u64,
        bytes: u64,
        out: *mut u8,
        out_n: usize,
        at: u64,
    ) -> u64;
    pub fn embulgri_crop(
        stream: *const u8,
        n: usize,
        page: u64,
        out: *mut u8,
        out_n: usize,
        written: *mut u64,
    ) -> u32;
    pub fn embulgri_crop_start(
        stream: *const u8,
        n: usize,
        last: u64,
        position: u64,
        start: *mut u64,
    ) -> u32;
    pub fn embulgri_check(
        stream: *const u8,
        n: usize,
        kinds: *mut u64,
        kinds_n: usize,
        pages: *mut u64,
        pages_n: usize,
        count: *mut u64,
    ) -> u32;
    pub fn embulgri_list_first(out: *mut u8, out_n: usize, at: u64) -> u64;
    pub fn embulgri_list_total(state: *const u64, out: *mut u8, out_n: usize, at: u64) -> u64;
    pub fn embulgri_list_refused(
        number: u64,
        page: u64,
        out: *mut u8,
        out_n: usize,
        at: u64,
    ) -> u64;
    pub fn embulgri_list_entries(
        ends: *const u64,
        ends_n: usize,
        lengths: *const u64,
        lengths_n: usize,
        frames: *const u64,
        frames_n: usize,
        kept: *const u64,
        kept_n: usize,
        out: *mut u8,
        out_n: usize,
        at: u64,
        put: *mut u64,
    );
    pub fn embulgri_header_lines(
        head: *const u8,
        head_n: usize,
        tags: *const u8,
        tags_n: usize,
        out: *mut u8,
        out_n: usize,
        written: *mut u64,
    ) -> u32;
    pub fn embulgri_index_first(out: *mut u8, out_n: usize, at: u64) -> u64;
    pub fn embulgri_index_records(
        granules: *const u64,
        granules_n: usize,
        places: *const u64,
        places_n: usize,
        sequences: *const u32,
        sequences_n: usize,
        out: *mut u8,
        out_n: usize,
        at: u64,
        put: *mut u64,
    );
    pub fn embulgri_index_refused(number: u64, out: *mut u8, out_n: usize, at: u64) -> u64;
    pub fn embulgri_seek_first(out: *mut u8, out_n: usize, at: u64) -> u64;
    pub fn embulgri_seek_found(
        granule: u64,
        place: u64,
        sequence: u32,
        probes: u64,
        out: *mut u8,
        out_n: usize,
        at: u64,
    ) -> u64;
    pub fn embulgri_seek_begin(probes: u64, out: *mut u8, out_n: usize, at: u64) -> u64;
    pub fn embulgri_seek_refused(
        number: u64,
        place: u64,
        out: *mut u8,
        out_n: usize,
        at: u64,
    ) -> u64;
}
