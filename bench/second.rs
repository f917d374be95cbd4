//! The second program, second/src/model/, behind the library's calls: the same structs in, the same structs out.
#![allow(dead_code)]

#[path = "../second/src/compare/functions.rs"]
mod functions;
#[path = "../second/src/compare/library.rs"]
mod library;
#[path = "../second/src/model/mod.rs"]
mod model;

use library::*;
use model::block_file::Block;
use model::reading::{self, Run};
use model::{bank, binary64, block_file, block_sum, digit_text, listing, round_bit, running_sum};
use std::slice::{from_raw_parts, from_raw_parts_mut};

#[no_mangle]
pub extern "C" fn second_round_bit_sum(x: FrostRoundBit, y: FrostRoundBit) -> FrostRoundBitAnswer {
    OfModel::of(round_bit::sum(x.model(), y.model()))
}

#[no_mangle]
pub extern "C" fn second_round_bit_cut(w: FrostRoundBit, depth: u64) -> FrostRoundBitAnswer {
    OfModel::of(round_bit::cut(w.model(), depth as i128))
}

#[no_mangle]
pub extern "C" fn second_round_bit_even_cut(w: FrostRoundBit, depth: u64) -> FrostRoundBitAnswer {
    OfModel::of(round_bit::even_cut(w.model(), depth as i128))
}

#[no_mangle]
pub extern "C" fn second_round_bit_product(
    x: FrostRoundBit,
    y: FrostRoundBit,
) -> FrostRoundBitAnswer {
    OfModel::of(round_bit::product(x.model(), y.model()))
}

#[no_mangle]
pub extern "C" fn second_running_sum_open(width: u32, unit: i32, depth: u64) -> FrostSumAnswer {
    OfModel::of(running_sum::open(
        width as i128,
        unit as i128,
        depth as i128,
    ))
}

#[no_mangle]
pub extern "C" fn second_running_sum_put(s: FrostRunningSum, w: FrostRoundBit) -> FrostSumAnswer {
    OfModel::of(running_sum::put(s.model(), w.model()))
}

#[no_mangle]
pub extern "C" fn second_running_sum_hand_out(s: FrostRunningSum) -> FrostSumAnswer {
    OfModel::of(running_sum::hand_out(s.model()))
}

#[no_mangle]
pub extern "C" fn second_bank_output(
    bank: FrostBank,
    window: FrostWindow,
    channel: u32,
) -> FrostRoundBitAnswer {
    OfModel::of(bank::output(&bank.model(), &window.model(), channel as i128))
}

#[no_mangle]
pub extern "C" fn second_plain_from_binary64(bits: u64, width: u32, unit: i32) -> FrostPlainAnswer {
    OfModel::of(binary64::to_plain(bits, width as i128, unit as i128))
}

#[no_mangle]
pub extern "C" fn second_half_unit_from_binary64(
    bits: u64,
    width: u32,
    unit: i32,
) -> FrostHalfUnitAnswer {
    OfModel::of(binary64::to_half_unit(bits, width as i128, unit as i128))
}

/// # Safety
/// As the header asks: the pointer is valid for the room.
#[no_mangle]
pub unsafe extern "C" fn second_digit_text_write(
    w: FrostRoundBit,
    text: *mut u8,
    room: usize,
) -> FrostWritten {
    OfModel::of(digit_text::write(w.model(), from_raw_parts_mut(text, room)))
}

/// # Safety
/// As the header asks: the pointer is valid for the length.
#[no_mangle]
pub unsafe extern "C" fn second_digit_text_read(
    text: *const u8,
    length: usize,
    unit: i32,
) -> FrostTextAnswer {
    OfModel::of(digit_text::read(from_raw_parts(text, length), unit as i128))
}

/// # Safety
/// As the header asks: every pointer is valid for its length, and no buffer that is written overlaps another.
#[no_mangle]
pub unsafe extern "C" fn second_file_read(
    file: *const u8,
    length: usize,
    numbers: *mut i64,
    numbers_room: usize,
    rounds: *mut u8,
    rounds_room: usize,
) -> FrostFileHead {
    OfModel::of(block_file::read(
        from_raw_parts(file, length),
        from_raw_parts_mut(numbers, numbers_room),
        from_raw_parts_mut(rounds, rounds_room),
    ))
}

/// # Safety
/// As for reading.
#[no_mangle]
pub unsafe extern "C" fn second_file_write(
    kind: u32,
    width: u32,
    unit: i32,
    numbers: *const i64,
    numbers_length: usize,
    rounds: *const u8,
    rounds_length: usize,
    file: *mut u8,
    room: usize,
) -> FrostWritten {
    let block = Block {
        kind: kind as i128,
        width: width as i128,
        unit: unit as i128,
        numbers: from_raw_parts(numbers, numbers_length),
        rounds: from_raw_parts(rounds, rounds_length),
    };
    OfModel::of(block_file::write(block, from_raw_parts_mut(file, room)))
}

/// # Safety
/// As for reading.
#[no_mangle]
pub unsafe extern "C" fn second_reading_of_run(
    kind: u32,
    width: u32,
    numbers: *const i64,
    numbers_length: usize,
    rounds: *const u8,
    rounds_length: usize,
    first: usize,
    length: usize,
) -> FrostReadingAnswer {
    OfModel::of(reading::of_run(Run {
        kind: kind as i128,
        width: width as i128,
        numbers: from_raw_parts(numbers, numbers_length),
        rounds: from_raw_parts(rounds, rounds_length),
        first: first as i128,
        length: length as i128,
    }))
}

/// # Safety
/// As for reading.
#[no_mangle]
pub unsafe extern "C" fn second_block_sum(
    width: u32,
    unit: i32,
    numbers: *const i64,
    numbers_length: usize,
    rounds: *const u8,
    rounds_length: usize,
) -> FrostBlockSumAnswer {
    OfModel::of(block_sum::of_block(block_sum::Block {
        width: width as i128,
        unit: unit as i128,
        numbers: from_raw_parts(numbers, numbers_length),
        rounds: from_raw_parts(rounds, rounds_length),
    }))
}

/// # Safety
/// As for reading.
#[no_mangle]
pub unsafe extern "C" fn second_listing_text(
    file: *const u8,
    length: usize,
    text: *mut u8,
    room: usize,
) -> FrostWritten {
    OfModel::of(listing::write(
        from_raw_parts(file, length),
        from_raw_parts_mut(text, room),
    ))
}
