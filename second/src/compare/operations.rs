//! Every operation once: how it is called in the library and in the second
//! program, and the causes it can refuse by; then the rows of the tally.

use super::case::{Case, Reply, Takes, ROUND_BIT_WORD};
use super::library::*;
use super::refusals::*;
use super::tally::Row;
use crate::model::causes::BUFFER_TOO_SHORT;
use crate::model::layout::LAYOUTS;
use crate::model::{half_unit, round_bit, running_sum};

/// An operation on words.
pub struct Operation {
    pub name: &'static str,
    pub refuses: &'static [u32],
    pub takes: Takes,
    pub library: fn(&Case) -> Reply,
    pub second: fn(&Case) -> Reply,
}

const fn takes(round: bool, depth: bool, second: bool) -> Takes {
    Takes {
        number: true,
        round,
        depth,
        second,
    }
}

const ROUND_BIT: Takes = ROUND_BIT_WORD;
const ROUND_BIT_DEPTH: Takes = takes(true, true, false);
const ROUND_BITS: Takes = takes(true, false, true);
const OTHER: Takes = takes(false, false, false);
const OTHER_DEPTH: Takes = takes(false, true, false);
const OTHERS: Takes = takes(false, false, true);
const SUM_AND_WORD: Takes = takes(true, true, true);
const FORMAT_DEPTH: Takes = Takes {
    number: false,
    ..takes(false, true, false)
};

/// One row: what it takes, its function in each program, why it refuses.
macro_rules! row {
    ($takes:ident, $library:ident, $second:path, $refuses:ident,
     |$case:ident| ($($given:expr),*), ($($taken:expr),*)) => {
        Operation {
            name: stringify!($library),
            refuses: $refuses,
            takes: $takes,
            library: |$case| unsafe { $library($($given),*) }.model().into(),
            second: |$case| $second($($taken),*).into(),
        }
    };
}

/// An operation on one word, or on one word and a depth, or on two words.
macro_rules! one {
    ($takes:ident, $library:ident, $second:path, $refuses:ident) => {
        row!(
            $takes,
            $library,
            $second,
            $refuses,
            |c| (c.first.for_library()),
            (c.first.word())
        )
    };
}
macro_rules! deep {
    ($takes:ident, $library:ident, $second:path, $refuses:ident) => {
        row!(
            $takes,
            $library,
            $second,
            $refuses,
            |c| (c.first.for_library(), c.depth),
            (c.first.word(), c.depth as i128)
        )
    };
}
macro_rules! two {
    ($takes:ident, $library:ident, $second:path, $refuses:ident) => {
        row!(
            $takes,
            $library,
            $second,
            $refuses,
            |c| (c.first.for_library(), c.second.for_library()),
            (c.first.word(), c.second.word())
        )
    };
}

#[rustfmt::skip] // one row, one line
pub const OPERATIONS: &[Operation] = &[
    one!(ROUND_BIT, frost_round_bit_sign_change, round_bit::sign_change, OF_WORDS),
    deep!(ROUND_BIT_DEPTH, frost_round_bit_cut, round_bit::cut, OF_CUT),
    deep!(ROUND_BIT_DEPTH, frost_round_bit_rest, round_bit::rest, OF_CUT),
    deep!(ROUND_BIT_DEPTH, frost_round_bit_even_cut, round_bit::even_cut, OF_CUT),
    deep!(ROUND_BIT_DEPTH, frost_round_bit_widen, round_bit::widen, OF_WIDER),
    two!(ROUND_BITS, frost_round_bit_sum, round_bit::sum, OF_SUM),
    two!(ROUND_BITS, frost_round_bit_difference, round_bit::difference, OF_SUM),
    two!(ROUND_BITS, frost_round_bit_product, round_bit::product, OF_WIDER),
    one!(ROUND_BIT, frost_round_bit_to_plain, round_bit::to_plain, OF_FIT),
    one!(OTHER, frost_round_bit_from_plain, round_bit::from_plain, OF_WORDS),
    one!(OTHER, frost_half_unit_sign_change, half_unit::sign_change, OF_WORDS),
    deep!(OTHER_DEPTH, frost_half_unit_cut, half_unit::cut, OF_CUT),
    deep!(OTHER_DEPTH, frost_half_unit_from_plain_up, half_unit::from_plain_up, OF_CUT),
    deep!(OTHER_DEPTH, frost_half_unit_from_plain_even, half_unit::from_plain_even, OF_CUT),
    one!(OTHER, frost_half_unit_to_plain, half_unit::to_plain, OF_WIDER),
    one!(OTHER, frost_half_unit_to_round_bit, half_unit::to_round_bit, OF_WIDER),
    one!(ROUND_BIT, frost_half_unit_from_round_bit, half_unit::from_round_bit, OF_WIDER),
    two!(OTHERS, frost_half_unit_sum_up, half_unit::sum_up, OF_SUM),
    two!(OTHERS, frost_half_unit_sum_even, half_unit::sum_even, OF_SUM),
    two!(OTHERS, frost_half_unit_product, half_unit::product, OF_WIDER),
    row!(FORMAT_DEPTH, frost_running_sum_open, running_sum::open, OF_OPENING,
        |c| (c.first.width, c.first.unit, c.depth),
        (c.first.width as i128, c.first.unit as i128, c.depth as i128)),
    row!(SUM_AND_WORD, frost_running_sum_put, running_sum::put, OF_PUT,
        |c| (OfModel::of(c.sum()), c.second.for_library()), (c.sum(), c.second.word())),
    row!(ROUND_BIT_DEPTH, frost_running_sum_hand_out, running_sum::hand_out, OF_CUT,
        |c| (OfModel::of(c.sum())), (c.sum())),
    row!(ROUND_BIT_DEPTH, frost_running_sum_empty, running_sum::empty, OF_CUT,
        |c| (OfModel::of(c.sum())), (c.sum())),
];

pub const SIGN_CHANGE: usize = row_of("frost_round_bit_sign_change");
pub const CUT: usize = row_of("frost_round_bit_cut");
pub const EVEN_CUT: usize = row_of("frost_round_bit_even_cut");
pub const SUM: usize = row_of("frost_round_bit_sum");
pub const TO_PLAIN: usize = row_of("frost_round_bit_to_plain");
pub const HALF_UNIT_SIGN_CHANGE: usize = row_of("frost_half_unit_sign_change");
pub const HALF_UNIT_CUT: usize = row_of("frost_half_unit_cut");
pub const FROM_PLAIN_EVEN: usize = row_of("frost_half_unit_from_plain_even");
pub const OPEN: usize = row_of("frost_running_sum_open");
pub const PUT: usize = row_of("frost_running_sum_put");
pub const HAND_OUT: usize = row_of("frost_running_sum_hand_out");
pub const EMPTY: usize = row_of("frost_running_sum_empty");

/// The operations that are called elsewhere, the bank, those with lent buffers
/// and the imports, and what is printed; their rows stand after those of the words.
/// A file counts in a row of its version as well, whatever else is wrong with it.
/// A run of moves is no function: it counts once, by the refusal that ended it.
#[rustfmt::skip]
const ELSEWHERE: &[Row] = &[
    Row { name: "runs of moves, round-bit", refuses: OF_MOVES },
    Row { name: "runs of moves, half-unit", refuses: OF_MOVES },
    Row { name: "frost_bank_output", refuses: OF_BANK },
    Row { name: "frost_digit_text_write", refuses: OF_TEXT },
    Row { name: "frost_digit_text_read", refuses: OF_TEXT_READ },
    Row { name: "frost_file_read", refuses: OF_FILE_READ },
    Row { name: "frost_file_read, version 1", refuses: OF_FILE_READ },
    Row { name: "frost_file_read, version 2", refuses: OF_FILE_READ },
    Row { name: "frost_file_write", refuses: OF_FILE },
    Row { name: "frost_file_write, widths of version 1", refuses: OF_FILE_OF_A_WIDTH },
    Row { name: "frost_file_write, widths of version 2", refuses: OF_FILE_OF_A_WIDTH },
    Row { name: "frost_reading_of_run", refuses: OF_READING },
    Row { name: "frost_block_sum", refuses: OF_BLOCK_SUM },
    Row { name: "frost_plain_from_binary64", refuses: OF_IMPORT },
    Row { name: "frost_round_bit_from_binary64", refuses: OF_IMPORT },
    Row { name: "frost_half_unit_from_binary64", refuses: OF_IMPORT },
    Row { name: "frost_listing_text", refuses: &[BUFFER_TOO_SHORT] },
    Row { name: "frost_listing_text, printed", refuses: OF_PRINTED },
    Row { name: "frost_listing_text, printed, version 1", refuses: OF_PRINTED },
    Row { name: "frost_listing_text, printed, version 2", refuses: OF_PRINTED },
    Row { name: "listing program, printed", refuses: OF_PRINTED },
    Row { name: "listing program, printed, version 1", refuses: OF_PRINTED },
    Row { name: "listing program, printed, version 2", refuses: OF_PRINTED },
];

pub const ROUND_BIT_RUN: usize = row_of("runs of moves, round-bit");
pub const HALF_UNIT_RUN: usize = row_of("runs of moves, half-unit");
pub const BANK_OUTPUT: usize = row_of("frost_bank_output");
pub const TEXT_WRITE: usize = row_of("frost_digit_text_write");
pub const TEXT_READ: usize = row_of("frost_digit_text_read");
pub const FILE_READ: usize = row_of("frost_file_read");
pub const FILE_WRITE: usize = row_of("frost_file_write");
pub const READING_OF_RUN: usize = row_of("frost_reading_of_run");
pub const BLOCK_SUM: usize = row_of("frost_block_sum");
pub const PLAIN_IMPORT: usize = row_of("frost_plain_from_binary64");
pub const ROUND_BIT_IMPORT: usize = row_of("frost_round_bit_from_binary64");
pub const HALF_UNIT_IMPORT: usize = row_of("frost_half_unit_from_binary64");
pub const LISTING_CALL: usize = row_of("frost_listing_text");
pub const LISTING_PRINTED: usize = row_of("frost_listing_text, printed");
pub const PROGRAM_PRINTED: usize = row_of("listing program, printed");

/// Rows by the place of the version among the layouts; a version without its
/// rows does not compile.
type ByVersion = [usize; LAYOUTS.len()];
pub const FILE_READ_OF: ByVersion = [
    row_of("frost_file_read, version 1"),
    row_of("frost_file_read, version 2"),
];
pub const FILE_WRITE_OF: ByVersion = [
    row_of("frost_file_write, widths of version 1"),
    row_of("frost_file_write, widths of version 2"),
];
pub const LISTING_PRINTED_OF: ByVersion = [
    row_of("frost_listing_text, printed, version 1"),
    row_of("frost_listing_text, printed, version 2"),
];
pub const PROGRAM_PRINTED_OF: ByVersion = [
    row_of("listing program, printed, version 1"),
    row_of("listing program, printed, version 2"),
];

/// The tally's rows.
pub fn rows() -> Vec<Row> {
    let words = OPERATIONS.iter().map(|operation| Row {
        name: operation.name,
        refuses: operation.refuses,
    });
    words.chain(ELSEWHERE.iter().copied()).collect()
}

/// The first row of the tally with this name; a name that has none does not
/// compile where a constant asks.
pub const fn row_of(name: &str) -> usize {
    let mut row = 0;
    while row < OPERATIONS.len() {
        if same(OPERATIONS[row].name, name) {
            return row;
        }
        row += 1;
    }
    while row < OPERATIONS.len() + ELSEWHERE.len() {
        if same(ELSEWHERE[row - OPERATIONS.len()].name, name) {
            return row;
        }
        row += 1;
    }
    panic!("an operation of the table")
}

const fn same(one: &str, other: &str) -> bool {
    let (one, other) = (one.as_bytes(), other.as_bytes());
    let mut place = 0;
    while place < one.len() && place < other.len() && one[place] == other[place] {
        place += 1;
    }
    place == one.len() && place == other.len()
}
