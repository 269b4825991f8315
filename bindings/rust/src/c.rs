// The functions of include/dcps.h: the one declaration of them in Rust, compared with the header by a test. The crates of
// oracle/ and bench/ include this file.

unsafe extern "C" {
    pub fn dcps_version() -> u32;
    pub fn dcps_call(
        head: *mut u8,
        head_len: usize,
        sheet: *const u8,
        sheet_len: usize,
        pens: *mut u8,
        pens_len: usize,
        writers: *mut u8,
        writers_len: usize,
        lost: *mut u8,
        lost_len: usize,
        out: *mut u8,
        out_len: usize,
        answer: *mut u8,
        answer_len: usize,
    ) -> u32;
    pub fn dcps_fresh(
        head: *mut u8,
        head_len: usize,
        pens: *mut u8,
        pens_len: usize,
        writers: *mut u8,
        writers_len: usize,
        lost: *mut u8,
        lost_len: usize,
    ) -> u32;
    pub fn dcps_status(
        head: *const u8,
        head_len: usize,
        answer: *mut u8, // of 72 bytes
        answer_len: usize,
    ) -> u32;
    pub fn dcps_changes(
        head: *const u8,
        head_len: usize,
        answer: *mut u8,
        answer_len: usize,
    ) -> u32;
    pub fn dcps_should_deliver_under_time_based_filter(
        pens: *const u8,
        pens_len: usize,
        high: u64,
        low: u64,
        sec: i32,
        nanosec: u32,
        min_separation: u64,
        answer: *mut u8,
        answer_len: usize,
    ) -> u32;
    pub fn dcps_should_deliver_under_destination_order(
        pens: *const u8,
        pens_len: usize,
        high: u64,
        low: u64,
        sec: i32,
        nanosec: u32,
        by_source: u8,
        answer: *mut u8,
        answer_len: usize,
    ) -> u32;
    pub fn dcps_last_delivered_ts(
        pens: *const u8,
        pens_len: usize,
        high: u64,
        low: u64,
        answer: *mut u8,
        answer_len: usize,
    ) -> u32;
    pub fn dcps_next_handle_after(
        pens: *const u8,
        pens_len: usize,
        previous: u64,
        answer: *mut u8,
        answer_len: usize,
    ) -> u32;
    pub fn dcps_handle_at_position(
        pens: *const u8,
        pens_len: usize,
        position: usize,
        answer: *mut u8,
        answer_len: usize,
    ) -> u32;
    pub fn dcps_holder_in_force(
        pens: *const u8,
        pens_len: usize,
        high: u64,
        low: u64,
        answer: *mut u8,
        answer_len: usize,
    ) -> u32;
    pub fn dcps_writer_lookup(
        pens: *const u8,
        pens_len: usize,
        high: u64,
        low: u64,
        answer: *mut u8,
        answer_len: usize,
    ) -> u32;
    pub fn dcps_would_leave_writerless(
        pens: *const u8,
        pens_len: usize,
        gone: *const u8,
        gone_len: usize,
        view_states: u32,
        answer: *mut u8,
        answer_len: usize,
    ) -> u32;
    pub fn dcps_left_writerless(
        pens: *const u8,
        pens_len: usize,
        gone: *const u8,
        gone_len: usize,
        view_states: u32,
        out: *mut u8,
        out_len: usize,
        answer: *mut u8,
        answer_len: usize,
    ) -> u32;
    pub fn dcps_key_hash(
        serialized: *const u8,
        serialized_len: usize,
        largest: u64,
        answer: *mut u8,
        answer_len: usize,
    ) -> u32;
    pub fn dcps_wire_fraction(nanosec: u32, answer: *mut u8, answer_len: usize) -> u32;
    pub fn dcps_wire_nanos(
        fraction: u32,
        remainder: u32,
        answer: *mut u8,
        answer_len: usize,
    ) -> u32;
}
