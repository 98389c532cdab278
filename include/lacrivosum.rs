//! The functions of the library for C, as lacrivosum.h declares and explains them, for Rust. tools/header-check holds this file to that header.
#![allow(dead_code)]

#[rustfmt::skip]
extern "C" {
    pub fn lac_reader_select(state: *mut u8, state_len: usize, out: *mut u8, out_len: usize) -> i64;
    pub fn lac_reader_wake(state: *mut u8, state_len: usize, uid: *const u8, uid_len: usize, out: *mut u8, out_len: usize) -> i64;
    pub fn lac_reader_sweep(state: *mut u8, state_len: usize, out: *mut u8, out_len: usize) -> i64;
    pub fn lac_reader_rats(state: *mut u8, state_len: usize, index: u8, out: *mut u8, out_len: usize) -> i64;
    pub fn lac_reader_send(state: *mut u8, state_len: usize, message: *const u8, message_len: usize, out: *mut u8, out_len: usize) -> i64;
    pub fn lac_reader_deselect(state: *mut u8, state_len: usize, out: *mut u8, out_len: usize) -> i64;
    pub fn lac_reader_hear(state: *mut u8, state_len: usize, row: *const u8, row_len: usize, message: *const u8, message_len: usize, buffer: *mut u8, buffer_len: usize, out: *mut u8, out_len: usize) -> i64;
    pub fn lac_card_new(state: *mut u8, state_len: usize, uid: *const u8, uid_len: usize, blocks: u8, index: u8) -> i64;
    pub fn lac_card_power_on(state: *mut u8, state_len: usize) -> i64;
    pub fn lac_card_power_off(state: *mut u8, state_len: usize) -> i64;
    pub fn lac_card_take(state: *mut u8, state_len: usize, row: *const u8, row_len: usize, answer: *const u8, answer_len: usize, buffer: *mut u8, buffer_len: usize, out: *mut u8, out_len: usize) -> i64;
    pub fn lac_card_reply(state: *mut u8, state_len: usize, answer: *const u8, answer_len: usize, out: *mut u8, out_len: usize) -> i64;
    pub fn lac_card_ask(state: *mut u8, state_len: usize, wtxm: u8, out: *mut u8, out_len: usize) -> i64;
    pub fn lac_card_owes(state: *const u8, state_len: usize) -> u8;
    pub fn lac_card_state(state: *const u8, state_len: usize) -> u8;
    pub fn lac_event(state: *const u8, state_len: usize) -> u8;
    pub fn lac_length(state: *const u8, state_len: usize) -> u64;
    pub fn lac_reader_sak(state: *const u8, state_len: usize) -> u8;
    pub fn lac_uid(state: *const u8, state_len: usize, out: *mut u8, out_len: usize) -> i64;
    pub fn lac_sweep(state: *mut u8, state_len: usize, cards: *mut u8, cards_len: usize, n: usize, tick: u32, log: *mut u8, log_len: usize, list: *mut u8, list_len: usize) -> i64;
    pub fn lac_sweep_remember(state: *mut u8, state_len: usize, cards: *mut u8, cards_len: usize, n: usize, tick: u32, log: *mut u8, log_len: usize, list: *mut u8, list_len: usize) -> i64;
    pub fn lac_frames(state: *const u8, state_len: usize) -> u64;
    pub fn lac_wake(state: *mut u8, state_len: usize, uid: *const u8, uid_len: usize, cards: *mut u8, cards_len: usize, n: usize) -> i64;
    pub fn lac_b_reader_request(state: *mut u8, state_len: usize, wake: u8, n: u8, afi: u8, out: *mut u8, out_len: usize) -> i64;
    pub fn lac_b_reader_attach(state: *mut u8, state_len: usize, atqb: *const u8, atqb_len: usize, index: u8, out: *mut u8, out_len: usize) -> i64;
    pub fn lac_b_reader_halt(state: *mut u8, state_len: usize, pupi: *const u8, pupi_len: usize, out: *mut u8, out_len: usize) -> i64;
    pub fn lac_b_reader_hear(state: *mut u8, state_len: usize, row: *const u8, row_len: usize, out: *mut u8, out_len: usize) -> i64;
    pub fn lac_b_held(state: *const u8, state_len: usize) -> u8;
    pub fn lac_b_atqb(state: *const u8, state_len: usize, out: *mut u8, out_len: usize) -> i64;
    pub fn lac_b_card_new(state: *mut u8, state_len: usize, pupi: *const u8, pupi_len: usize, afi: u8, markers: u8, application: *const u8, application_len: usize, protocol: *const u8, protocol_len: usize) -> i64;
    pub fn lac_b_card_power_on(state: *mut u8, state_len: usize) -> i64;
    pub fn lac_b_card_power_off(state: *mut u8, state_len: usize) -> i64;
    pub fn lac_b_card_take(state: *mut u8, state_len: usize, number: u8, row: *const u8, row_len: usize, out: *mut u8, out_len: usize) -> i64;
    pub fn lac_b_card_state(state: *const u8, state_len: usize) -> u8;
    pub fn lac_b_inquire(state: *mut u8, state_len: usize, wake: u8, n: u8, afi: u8, cards: *mut u8, cards_len: usize, numbers: *const u8, numbers_len: usize, list: *mut u8, list_len: usize) -> i64;
    pub fn lac_memory_sweep(state: *mut u8, state_len: usize, out: *mut u8, out_len: usize) -> i64;
    pub fn lac_memory_hear(state: *mut u8, state_len: usize, row: *const u8, row_len: usize, out: *mut u8, out_len: usize) -> i64;
    pub fn lac_crc_a(bytes: *const u8, bytes_len: usize) -> u16;
    pub fn lac_crc_b(bytes: *const u8, bytes_len: usize) -> u16;
    pub fn lac_frame_write(bytes: *const u8, bytes_len: usize, out: *mut u8, out_len: usize) -> i64;
    pub fn lac_frame_write_crc(bytes: *const u8, bytes_len: usize, out: *mut u8, out_len: usize) -> i64;
    pub fn lac_frame_write_short(byte: u8, out: *mut u8, out_len: usize) -> i64;
    pub fn lac_frame_read(row: *const u8, row_len: usize, out: *mut u8, out_len: usize) -> i64;
    pub fn lac_frame_read_crc(row: *const u8, row_len: usize, out: *mut u8, out_len: usize) -> i64;
    pub fn lac_frame_read_short(row: *const u8, row_len: usize) -> i64;
    pub fn lac_frame_wrong(row: *const u8, row_len: usize) -> u64;
    pub fn lac_delay(row: *const u8, row_len: usize, sent: u32, heard: u32) -> i64;
    pub fn lac_front(gate: u8, value: f32, floor: f32, peak: f32, halves: *const f32, halves_len: usize, out: *mut u8, out_len: usize) -> i64;
}
