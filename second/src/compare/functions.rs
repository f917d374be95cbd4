//! The functions of the library under test, as its C header declares them.

use super::library::*;

extern "C" {
    pub fn frost_round_bit_sign_change(word: FrostRoundBit) -> FrostRoundBitAnswer;
    pub fn frost_round_bit_cut(word: FrostRoundBit, depth: u64) -> FrostRoundBitAnswer;
    pub fn frost_round_bit_rest(word: FrostRoundBit, depth: u64) -> FrostRoundBitAnswer;
    pub fn frost_round_bit_even_cut(word: FrostRoundBit, depth: u64) -> FrostRoundBitAnswer;
    pub fn frost_round_bit_widen(word: FrostRoundBit, depth: u64) -> FrostRoundBitAnswer;
    pub fn frost_round_bit_sum(a: FrostRoundBit, b: FrostRoundBit) -> FrostRoundBitAnswer;
    pub fn frost_round_bit_difference(a: FrostRoundBit, b: FrostRoundBit) -> FrostRoundBitAnswer;
    pub fn frost_round_bit_product(a: FrostRoundBit, b: FrostRoundBit) -> FrostRoundBitAnswer;
    pub fn frost_round_bit_to_plain(word: FrostRoundBit) -> FrostPlainAnswer;
    pub fn frost_round_bit_from_plain(word: FrostPlain) -> FrostRoundBitAnswer;

    pub fn frost_half_unit_sign_change(word: FrostHalfUnit) -> FrostHalfUnitAnswer;
    pub fn frost_half_unit_cut(word: FrostHalfUnit, depth: u64) -> FrostHalfUnitAnswer;
    pub fn frost_half_unit_from_plain_up(word: FrostPlain, depth: u64) -> FrostHalfUnitAnswer;
    pub fn frost_half_unit_from_plain_even(word: FrostPlain, depth: u64) -> FrostHalfUnitAnswer;
    pub fn frost_half_unit_to_plain(word: FrostHalfUnit) -> FrostPlainAnswer;
    pub fn frost_half_unit_to_round_bit(word: FrostHalfUnit) -> FrostRoundBitAnswer;
    pub fn frost_half_unit_from_round_bit(word: FrostRoundBit) -> FrostHalfUnitAnswer;
    pub fn frost_half_unit_sum_up(x: FrostHalfUnit, y: FrostHalfUnit) -> FrostHalfUnitAnswer;
    pub fn frost_half_unit_sum_even(x: FrostHalfUnit, y: FrostHalfUnit) -> FrostHalfUnitAnswer;
    pub fn frost_half_unit_product(x: FrostHalfUnit, y: FrostHalfUnit) -> FrostHalfUnitAnswer;

    pub fn frost_running_sum_open(width: u32, unit: i32, depth: u64) -> FrostSumAnswer;
    pub fn frost_running_sum_put(sum: FrostRunningSum, word: FrostRoundBit) -> FrostSumAnswer;
    pub fn frost_running_sum_hand_out(sum: FrostRunningSum) -> FrostSumAnswer;
    pub fn frost_running_sum_empty(sum: FrostRunningSum) -> FrostSumAnswer;

    pub fn frost_bank_output(
        bank: FrostBank,
        window: FrostWindow,
        channel: u32,
    ) -> FrostRoundBitAnswer;

    pub fn frost_digit_text_write(word: FrostRoundBit, text: *mut u8, room: usize) -> FrostWritten;
    pub fn frost_digit_text_read(text: *const u8, length: usize, unit: i32) -> FrostTextAnswer;

    pub fn frost_file_read(
        file: *const u8,
        length: usize,
        numbers: *mut i64,
        numbers_room: usize,
        rounds: *mut u8,
        rounds_room: usize,
    ) -> FrostFileHead;
    pub fn frost_file_write(
        kind: u32,
        width: u32,
        unit: i32,
        numbers: *const i64,
        numbers_length: usize,
        rounds: *const u8,
        rounds_length: usize,
        out: *mut u8,
        room: usize,
    ) -> FrostWritten;

    pub fn frost_reading_of_run(
        kind: u32,
        width: u32,
        numbers: *const i64,
        numbers_length: usize,
        rounds: *const u8,
        rounds_length: usize,
        first: usize,
        length: usize,
    ) -> FrostReadingAnswer;

    pub fn frost_block_sum(
        width: u32,
        unit: i32,
        numbers: *const i64,
        numbers_length: usize,
        rounds: *const u8,
        rounds_length: usize,
    ) -> FrostBlockSumAnswer;

    pub fn frost_plain_from_binary64(bits: u64, width: u32, unit: i32) -> FrostPlainAnswer;
    pub fn frost_round_bit_from_binary64(bits: u64, width: u32, unit: i32) -> FrostRoundBitAnswer;
    pub fn frost_half_unit_from_binary64(bits: u64, width: u32, unit: i32) -> FrostHalfUnitAnswer;

    pub fn frost_listing_text(
        file: *const u8,
        length: usize,
        out: *mut u8,
        room: usize,
    ) -> FrostWritten;
}
