//! What a block sum is asked of, and its call in both programs on one case.

use super::fall;
use super::library::{frost_block_sum, OfModel};
use super::operations::BLOCK_SUM;
use super::tally::Record;
use crate::model::block_sum::{self, Block, BlockSumAnswer};
use crate::model::layout::FileNumber;
use crate::model::words::RoundBit;
use std::fmt::Debug;

/// More numbers and round bits of a block than this are not printed.
const PRINTED_RECORDS: usize = 12;

/// A block to add. The records are lent: several cases share them.
#[derive(Clone, Copy)]
pub struct BlockSumCase<'a> {
    pub width: u32,
    pub unit: i32,
    pub numbers: &'a [FileNumber],
    pub rounds: &'a [u8],
}

impl<'a> BlockSumCase<'a> {
    /// Only so many of the numbers and so many of the round bits.
    pub fn of_lengths(self, numbers: usize, rounds: usize) -> BlockSumCase<'a> {
        BlockSumCase {
            numbers: &self.numbers[..numbers],
            rounds: &self.rounds[..rounds],
            ..self
        }
    }

    fn for_second(&self) -> Block<'a> {
        Block {
            width: self.width as i128,
            unit: self.unit as i128,
            numbers: self.numbers,
            rounds: self.rounds,
        }
    }

    pub fn describe(&self) -> String {
        format!(
            "width {}, unit {}, {}, round bits {}",
            self.width,
            self.unit,
            some_of(self.numbers),
            some_of(self.rounds)
        )
    }
}

fn some_of<T: Debug>(all: &[T]) -> String {
    let shown = all.len().min(PRINTED_RECORDS);
    format!("{} from 0 on {:?}", all.len(), &all[..shown])
}

/// What a block sum that is done answers.
pub fn done(width: u32, unit: i32, number: i128, round: i128) -> BlockSumAnswer {
    let word = RoundBit {
        number,
        round,
        width: width as i128,
        unit: unit as i128,
    };
    BlockSumAnswer {
        word,
        index: 0,
        refusal: 0,
    }
}

/// What a refusal answers, 3 with the index of its record and all others with 0: the
/// blank word as it stands in document 01, and not by the model's name.
pub fn refused(refusal: u32, index: usize) -> BlockSumAnswer {
    BlockSumAnswer {
        index: index as i128,
        refusal,
        ..done(2, 0, 0, 0)
    }
}

/// Calls both programs and compares all that they answer. The library's answer is
/// given back, for checks of more than one call.
pub fn compare(case: &BlockSumCase, record: &mut Record) -> BlockSumAnswer {
    fall::about_to_call_block_sum("frost_block_sum", case);
    let answer = unsafe {
        frost_block_sum(
            case.width,
            case.unit,
            case.numbers.as_ptr(),
            case.numbers.len(),
            case.rounds.as_ptr(),
            case.rounds.len(),
        )
    };
    fall::back();
    let library = answer.model();
    let second = block_sum::of_block(case.for_second());
    record.answer(BLOCK_SUM, library.refusal);
    record.check(library == second, || {
        format!(
            "frost_block_sum\n  case:    {}\n  library: {:?}\n  second:  {:?}",
            case.describe(),
            library,
            second
        )
    });
    library
}

/// Compares, and holds the library's answer against another that it must be.
pub fn expect(what: &str, case: &BlockSumCase, expected: BlockSumAnswer, record: &mut Record) {
    let library = compare(case, record);
    record.check(library == expected, || {
        format!(
            "{}\n  case:    {}\n  library: {:?}\n  must be: {:?}",
            what,
            case.describe(),
            library,
            expected
        )
    });
}
