//! Document 02, Ask 1: the filter bank of the eight-tap boards.
//! Written from documents 01 and 02 alone; it shares nothing with crates/.

use super::causes::*;
use super::round_bit::{cut, product, sum};
use super::words::*;

pub const CHANNELS: usize = 4;
pub const TAPS: usize = 8;
pub const TAP_WIDTH: i128 = 12;
pub const SAMPLE_WIDTH: i128 = 16;
/// The products are added in this width, and the total is then cut by so much.
pub const TOTAL_WIDTH: i128 = 31;
pub const CUT: i128 = 11;

/// One channel's taps; the window is as long, a sample for each tap.
pub type Row = [RoundBit; TAPS];
pub type Bank = [Row; CHANNELS];

pub fn output(bank: &Bank, window: &Row, channel: i128) -> Answer<RoundBit> {
    if channel >= CHANNELS as i128 {
        return Answer::refused(CHANNEL_OUTSIDE);
    }
    // From here on there is one row: the other channels' are not looked at.
    let taps = &bank[channel as usize];
    let refusal = causes(taps, window);
    if refusal != DONE {
        return Answer::refused(refusal);
    }
    let total = total(taps, window);
    match total.refusal {
        DONE => cut(total.word, CUT),
        refusal => Answer::refused(refusal),
    }
}

/// 1, 2, 3 of the taps in order, then of the samples, then 4, then 7.
fn causes(taps: &Row, window: &Row) -> u32 {
    let alike = are_alike(taps, TAP_WIDTH) && are_alike(window, SAMPLE_WIDTH);
    // Only asked after 4, so that any tap's unit is tap 0's.
    let of_products = taps[0].unit + window[0].unit;
    let of_output = of_products + CUT;
    let in_range = unit_is_good(of_products) && unit_is_good(of_output);
    first_of(&[
        causes_of_row(taps),
        causes_of_row(window),
        refuse_if(!alike, OPERANDS_DIFFER),
        refuse_if(!in_range, ANSWER_UNIT_OUTSIDE),
    ])
}

/// Word by word: all three of one word go before any of the next.
fn causes_of_row(row: &Row) -> u32 {
    first_of(&row.map(|word| word.causes()))
}

/// Of the width that is asked for, and of one unit among themselves.
fn are_alike(row: &Row, width: i128) -> bool {
    row.iter()
        .all(|word| word.width == width && word.unit == row[0].unit)
}

/// The products, added from tap 0 up. Words without a cause above are never
/// refused in here; an 8 would be answered, so that it does not stay hidden.
pub fn total(taps: &Row, window: &Row) -> Answer<RoundBit> {
    let mut total = extended(product(taps[0], window[0]));
    for i in 1..TAPS {
        let next = extended(product(taps[i], window[i]));
        let refusal = first_of(&[total.refusal, next.refusal]);
        if refusal != DONE {
            return Answer::refused(refusal);
        }
        total = sum(total.word, next.word);
    }
    total
}

/// Extended on the left the number repeats its sign, and so stays the same.
fn extended(product: Answer<RoundBit>) -> Answer<RoundBit> {
    let word = RoundBit {
        width: TOTAL_WIDTH,
        ..product.word
    };
    Answer { word, ..product }
}
