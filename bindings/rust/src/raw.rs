//! The exports of libsim7000.a, as bindings/c/sim7000.h declares them.

extern "C" {
    pub fn sim7000_read_line(line: *const u8, line_len: usize, values: *mut [u64; 20]) -> u8;
    pub fn sim7000_sort_line(line: *const u8, line_len: usize) -> u8;
    pub fn sim7000_write_command(
        request: u8,
        number: u16,
        code: u8,
        first: *const u8,
        first_len: usize,
        second: *const u8,
        second_len: usize,
        out: *mut u8,
        out_len: usize,
        size: *mut u64,
    ) -> u8;
    pub fn sim7000_open(
        state: *mut [u64; 4],
        request: u8,
        number: u16,
        code: u8,
        first: *const u8,
        first_len: usize,
        second: *const u8,
        second_len: usize,
        out: *mut u8,
        out_len: usize,
        size: *mut u64,
    ) -> u8;
    pub fn sim7000_open_echo(
        state: *mut [u64; 4],
        sent: *mut [u8; 210],
        request: u8,
        number: u16,
        code: u8,
        first: *const u8,
        first_len: usize,
        second: *const u8,
        second_len: usize,
        out: *mut u8,
        out_len: usize,
        size: *mut u64,
    ) -> u8;
    pub fn sim7000_feed(
        line: *mut [u8; 257],
        state: *mut [u64; 4],
        sent: *const [u8; 210],
        chunk: *const u8,
        chunk_len: usize,
        text: *mut u8,
        text_len: usize,
        told: *mut [u64; 5],
    ) -> u8;
    pub fn sim7000_reset(state: *mut [u64; 4]);
    pub fn sim7000_is_open(state: *const [u64; 4]) -> u8;
    pub fn sim7000_version() -> u32;
}
