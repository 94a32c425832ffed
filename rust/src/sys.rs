//! The calls as the library has them. `include/depot.h` says what each promises; the rest of this crate is the safe way to them.

extern "C" {
    pub fn depot_fresh(store: *mut u8, store_len: usize) -> u64;

    pub fn depot_test(store: *const u8, store_len: usize) -> u64;

    pub fn depot_frame(store: *mut u8, store_len: usize, frame: *const u8, frame_len: usize, out: *mut u8, out_len: usize) -> u64;

    pub fn depot_sighting(store: *mut u8, store_len: usize, desk: u64, uid: u64, mask: u64) -> u64;

    pub fn depot_tick(store: *mut u8, store_len: usize) -> u64;

    pub fn depot_make(
        kind: u64,
        desk: u64,
        control: u64,
        a: u64,
        b: u64,
        c: u64,
        bytes: *const u8,
        bytes_len: usize,
        out: *mut u8,
        out_len: usize,
    ) -> u64;

    pub fn depot_read(
        kind: u64,
        desk: u64,
        control: u64,
        a: u64,
        b: u64,
        c: u64,
        bytes: *const u8,
        bytes_len: usize,
        reply: *const u8,
        reply_len: usize,
    ) -> u64;

    pub fn depot_block(sent: *const u8, sent_len: usize, out: *mut u8, out_len: usize) -> u64;

    pub fn depot_timer(sent: *const u8, sent_len: usize, out: *mut u64, out_len: usize) -> u64;

    pub fn depot_sizes(sent: *const u8, sent_len: usize, out: *mut u64, out_len: usize) -> u64;

    pub fn depot_record(sent: *const u8, sent_len: usize, i: usize, out: *mut u64, out_len: usize) -> u64;

    pub fn depot_line(block: *const u8, block_len: usize, record: *const u8, record_len: usize, out: *mut u8, out_len: usize) -> u64;

    pub fn depot_lines(block: *const u8, block_len: usize, sent: *const u8, sent_len: usize, out: *mut u8, out_len: usize) -> u64;
}
