//! The exported calls as they are: `include/plavotesk.h` in Rust's types.

/// The version of the C interface that this crate speaks (PLV_VERSION of the header).
pub const VERSION: u32 = 4;

/// The words of a histogram's state.
pub const STATE_WORDS: usize = 323;

/// The most bytes of a packet that a packet ask writes (PLV_HISTOGRAM_PACKET_BYTES of the header).
pub const PACKET_BYTES: usize = 243;

#[link(name = "plavotesk", kind = "static")]
extern "C" {
    pub fn plv_version() -> u32;
    pub fn plv_checksum(bytes: *const u8, bytes_length: usize) -> u16;
    pub fn plv_packet_find(capture: *const u8, capture_length: usize, place: &mut u64, skipped: &mut u64) -> u8;
    pub fn plv_packet_header(capture: *const u8, capture_length: usize, place: u64, apid: &mut u16, length: &mut u16) -> u8;
    pub fn plv_packet_payload(capture: *const u8, capture_length: usize, place: u64, start: &mut u64, length: &mut u64);
    pub fn plv_packet_write(
        buffer: *mut u8,
        buffer_length: usize,
        apid: u16,
        payload: *const u8,
        payload_length: usize,
        written: &mut u64,
    ) -> u8;
    pub fn plv_message_read(
        bytes: *const u8,
        bytes_length: usize,
        address: &mut u16,
        tag: &mut u8,
        value: &mut u64,
        used: &mut u64,
    ) -> u8;
    pub fn plv_message_write(buffer: *mut u8, buffer_length: usize, address: u16, tag: u8, value: u64, written: &mut u64) -> u8;
    pub fn plv_code_pack(buffer: *mut u8, buffer_length: usize, at: u64, value: i32, drop: u8, next: &mut u64) -> u8;
    pub fn plv_code_unpack(
        bytes: *const u8,
        bytes_length: usize,
        at: u64,
        drop: u8,
        value: &mut i32,
        next: &mut u64,
        missing: &mut u8,
    ) -> u8;
    pub fn plv_reading(
        bytes: *const u8,
        bytes_length: usize,
        at: u64,
        drop: u8,
        low: &mut f64,
        high: &mut f64,
        exact: &mut u8,
        next: &mut u64,
        missing: &mut u8,
    ) -> u8;
    pub fn plv_rate(
        bytes: *const u8,
        bytes_length: usize,
        at: u64,
        drop: u8,
        level: u8,
        low: &mut f64,
        high: &mut f64,
        seconds: &mut f64,
        next: &mut u64,
        missing: &mut u8,
    ) -> u8;
    pub fn plv_float16_code(count: u64, code: &mut u16) -> u8;
    pub fn plv_float16_count(code: u16) -> u64;
    pub fn plv_float8_code(count: u64, code: &mut u8) -> u8;
    pub fn plv_float8_count(code: u8) -> u64;
    pub fn plv_int24_code(count: u64, code: &mut u32) -> u8;
    pub fn plv_int24_count(code: u32, count: &mut u32) -> u8;
    pub fn plv_log8_code(count: u64, code: &mut u8) -> u8;
    pub fn plv_log8_counts(code: u8, low: &mut u64, high: &mut u64, some: &mut u8);
    pub fn plv_level_seconds(level: u8, seconds: &mut u16) -> u8;
    pub fn plv_second_beginning(second: u16, level: &mut u8) -> u8;
    pub fn plv_second_ending(second: u16, level: &mut u8) -> u8;
    pub fn plv_histogram_open(memory: *mut u32, memory_length: usize, state: *mut u64, state_length: usize) -> u8;
    pub fn plv_histogram_increment(
        memory: *mut u32,
        memory_length: usize,
        state: *const u64,
        state_length: usize,
        address: u32,
    ) -> u8;
    pub fn plv_histogram_increments(
        memory: *mut u32,
        memory_length: usize,
        state: *const u64,
        state_length: usize,
        addresses: *const u32,
        addresses_length: usize,
        count: &mut u64,
        ended: &mut u8,
    ) -> u8;
    pub fn plv_histogram_next(state: *const u64, state_length: usize, number: &mut u16) -> u8;
    pub fn plv_histogram_flip(memory: *const u32, memory_length: usize, state: *mut u64, state_length: usize) -> u8;
    pub fn plv_histogram_ask(
        memory: *mut u32,
        memory_length: usize,
        state: *mut u64,
        state_length: usize,
        number: u16,
        address: u32,
        xsize: u8,
        ysize: u8,
        ystride: u16,
        clear: u8,
        sum: &mut u64,
        again: &mut u8,
    ) -> u8;
    pub fn plv_histogram_packet(
        memory: *mut u32,
        memory_length: usize,
        state: *mut u64,
        state_length: usize,
        number: u16,
        low: u8,
        items: *const u64,
        items_length: usize,
        flags: u8,
        initial: u8,
        second: u16,
        buffer: *mut u8,
        buffer_length: usize,
        written: &mut u64,
        total: &mut u64,
        again: &mut u8,
    ) -> u8;
}
