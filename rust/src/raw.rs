//! The functions of `include/floecavern.h` as they are, for callers who lend bytes of any length; the header says what each
//! asks of its pointers. The functions of the crate itself are safe.

extern "C" {
    pub fn floecavern_report(file: *const u8, file_len: usize, out: *mut u8, out_len: usize) -> u64;
    pub fn floecavern_check_loop(words: *const u8, words_len: usize) -> u64;
    pub fn floecavern_check_loop_for(version: u64, kind: u64, words: *const u8, words_len: usize) -> u64;
    pub fn floecavern_step(
        state: *mut u8,
        state_len: usize,
        base: u64,
        mem: *mut u8,
        mem_len: usize,
        hart: usize,
        value: *mut u8,
        value_len: usize,
    ) -> u64;
    pub fn floecavern_device_write(
        state: *mut u8,
        state_len: usize,
        base: u64,
        mem: *mut u8,
        mem_len: usize,
        addr: u64,
        size: usize,
        data: u64,
        value: *mut u8,
        value_len: usize,
    ) -> u64;
    pub fn floecavern_yield(
        state: *mut u8,
        state_len: usize,
        base: u64,
        mem: *mut u8,
        mem_len: usize,
        hart: usize,
        value: *mut u8,
        value_len: usize,
    ) -> u64;
    pub fn floecavern_run(
        state: *mut u8,
        state_len: usize,
        base: u64,
        mem: *mut u8,
        mem_len: usize,
        events: *const u8,
        events_len: usize,
        budget: usize,
        ran: *mut u8,
        ran_len: usize,
    ) -> u64;
    pub fn floecavern_replay(
        state: *mut u8,
        state_len: usize,
        base: u64,
        mem: *mut u8,
        mem_len: usize,
        log: *const u8,
        log_len: usize,
        told: *mut u8,
        told_len: usize,
    ) -> u64;
    pub fn floecavern_read_settings(
        file: *const u8,
        file_len: usize,
        boards: *mut u8,
        boards_len: usize,
        told: *mut u8,
        told_len: usize,
    ) -> u64;
    pub fn floecavern_write_settings(
        boards: *const u8,
        boards_len: usize,
        out: *mut u8,
        out_len: usize,
        told: *mut u8,
        told_len: usize,
    ) -> u64;
}
