//! What is lent for a block sum stays as it was, byte for byte, and so does what lies
//! beside it; and the answer does not hang on what lies there.

use super::block_sum_case::{compare, BlockSumCase};
use super::block_sum_made::{fits, past_within};
use super::block_sum_random::any_unit;
use super::block_sum_spoilt::spoil;
use super::lent::Lent;
use super::library::{frost_block_sum, OfModel};
use super::limits::*;
use super::operations::BLOCK_SUM;
use super::random::Random;
use super::reading_records::Records;
use super::tally::Record;
use crate::model::block_sum::BlockSumAnswer;
use crate::model::layout::FileNumber;

/// For each width; and the most records of each.
const BLOCKS: u64 = 60;
const MOST_COUNT: u64 = 40;

pub fn as_it_was(random: &mut Random, record: &mut Record) {
    for width in LEAST_WIDTH..=MOST_BLOCK_SUM_WIDTH {
        for _ in 0..BLOCKS {
            let count = 3 + random.below(MOST_COUNT - 2) as usize;
            let make = random.one_of(&[fits, past_within]);
            let mut records = Records::of(&make(random, width, count));
            if random.once_in(3) {
                let place = random.below(count as u64) as usize;
                spoil(random, width, &mut records, place);
            }
            let block = records.block(width, any_unit(random));
            let case = match random.below(6) {
                0 => block.of_lengths(count, random.below(count as u64) as usize),
                1 => block.of_lengths(random.below(count as u64) as usize, count),
                2 => block.of_lengths(0, 0),
                3 => BlockSumCase {
                    width: MOST_BLOCK_SUM_WIDTH + 1,
                    ..block
                },
                _ => block,
            };
            lent_twice(random, &case, record);
        }
    }
}

/// Each time between other margins: the answers must be alike.
fn lent_twice(random: &mut Random, case: &BlockSumCase, record: &mut Record) {
    let expected = compare(case, record);
    for _ in 0..2 {
        let answer = lent(case, random.next(), record);
        record.check(answer == expected, || {
            format!(
                "a block between other margins\n  case:    {}\n  library: {:?}\n  other:   {:?}",
                case.describe(),
                expected,
                answer
            )
        });
    }
}

fn lent(case: &BlockSumCase, salt: u64, record: &mut Record) -> BlockSumAnswer {
    let mut numbers: Lent<FileNumber> = Lent::holding_numbers(case.numbers, salt);
    let mut rounds: Lent<u8> = Lent::holding_bytes(case.rounds, salt);
    let (numbers_before, rounds_before) = (numbers.clone(), rounds.clone());
    // The pointers are good for writing: so the compiler may not take it that nothing is
    // written.
    let answer = unsafe {
        frost_block_sum(
            case.width,
            case.unit,
            numbers.pointer(),
            numbers.room(),
            rounds.pointer(),
            rounds.room(),
        )
    };
    let answer = answer.model();
    record.answer(BLOCK_SUM, answer.refusal);
    record.check(numbers == numbers_before && rounds == rounds_before, || {
        format!(
            "what is lent stays as it was\n  case:    {}\n  numbers: {}\n  rounds:  {}",
            case.describe(),
            numbers.first_difference(&numbers_before),
            rounds.first_difference(&rounds_before)
        )
    });
    answer
}
