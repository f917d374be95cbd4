//! The causes that each operation can refuse by, from documents 01 and 02.

use crate::model::causes::*;

/// Why a number can occur: a word as operand gives 1, 2, 3; a sum 4 and 8; a
/// cut 5 and 7; a wider answer 6 and 7; a lent buffer 10. Widening and the
/// products always fit, so they have no 8, and the cuts get no wider, so no 6.
/// The bank's widths are set, so it has no 5 and no 6, and its total always
/// fits, so no 8.
macro_rules! and_of_words {
    ($($cause:ident),*) => {
        &[WIDTH_OUTSIDE, UNIT_OUTSIDE, NUMBER_OUTSIDE $(, $cause)*]
    };
}

pub const OF_WORDS: &[u32] = and_of_words![];
pub const OF_SUM: &[u32] = and_of_words![OPERANDS_DIFFER, ANSWER_DOES_NOT_FIT];
pub const OF_CUT: &[u32] = and_of_words![DEPTH_OUTSIDE, ANSWER_UNIT_OUTSIDE];
/// Of a run of cuts and sign changes: 1, 2 and 3 by its first move, since no move
/// answers a wrong word, and 5 and 7 by a cut.
pub const OF_MOVES: &[u32] = and_of_words![DEPTH_OUTSIDE, ANSWER_UNIT_OUTSIDE];
pub const OF_WIDER: &[u32] = and_of_words![ANSWER_TOO_WIDE, ANSWER_UNIT_OUTSIDE];
pub const OF_FIT: &[u32] = and_of_words![ANSWER_DOES_NOT_FIT];
#[rustfmt::skip]
pub const OF_PUT: &[u32] =
    and_of_words![OPERANDS_DIFFER, DEPTH_OUTSIDE, ANSWER_UNIT_OUTSIDE, ANSWER_DOES_NOT_FIT];
/// Opening takes a width, a unit and a depth, and no number: no 3.
#[rustfmt::skip]
pub const OF_OPENING: &[u32] =
    &[WIDTH_OUTSIDE, UNIT_OUTSIDE, DEPTH_OUTSIDE, ANSWER_UNIT_OUTSIDE];
pub const OF_BANK: &[u32] = and_of_words![OPERANDS_DIFFER, ANSWER_UNIT_OUTSIDE, CHANNEL_OUTSIDE];
pub const OF_TEXT: &[u32] = and_of_words![BUFFER_TOO_SHORT];
/// A text has a width (its length) and a unit, but no number of its own; its
/// bytes give 13 and 9.
pub const OF_TEXT_READ: &[u32] = &[WIDTH_OUTSIDE, UNIT_OUTSIDE, BYTE_WRONG, SIGN_REPEATED];
#[rustfmt::skip]
pub const OF_FILE_READ: &[u32] =
    and_of_words![BUFFER_TOO_SHORT, MARK_OR_VERSION_WRONG, LENGTH_KIND_OR_COUNT_WRONG];
/// A writer puts the mark and version itself: no 11.
pub const OF_FILE: &[u32] = and_of_words![BUFFER_TOO_SHORT, LENGTH_KIND_OR_COUNT_WRONG];
/// Among the widths of one version none is wrong: no 1.
#[rustfmt::skip]
pub const OF_FILE_OF_A_WIDTH: &[u32] =
    &[UNIT_OUTSIDE, NUMBER_OUTSIDE, BUFFER_TOO_SHORT, LENGTH_KIND_OR_COUNT_WRONG];
/// A reading takes no unit, so no 2, and no buffer to be written, so no 10.
#[rustfmt::skip]
pub const OF_READING: &[u32] =
    &[WIDTH_OUTSIDE, NUMBER_OUTSIDE, LENGTH_KIND_OR_COUNT_WRONG, RUN_WRONG];
/// A block's records are of one format, so no 4; its sum is no wider, so no 6.
pub const OF_BLOCK_SUM: &[u32] = and_of_words![ANSWER_DOES_NOT_FIT, LENGTH_KIND_OR_COUNT_WRONG];
/// An import takes bits in place of a number, so no 3, and is asked for its width
/// and unit, so no 6 and no 7.
#[rustfmt::skip]
pub const OF_IMPORT: &[u32] = &[WIDTH_OUTSIDE, UNIT_OUTSIDE, ANSWER_DOES_NOT_FIT, NOT_FINITE];
/// The line `refused N` within the text, 0 for a listing: never 10, since a
/// listing asks for no buffers of numbers.
#[rustfmt::skip]
pub const OF_PRINTED: &[u32] = and_of_words![MARK_OR_VERSION_WRONG, LENGTH_KIND_OR_COUNT_WRONG];
