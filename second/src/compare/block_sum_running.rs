//! The same records put into a running sum of the library's, from left to right, and
//! emptied: where no put is refused it hands back the block sum's word, and a put is
//! refused just where the sum of that step is.

use super::block_sum_case::BlockSumCase;
use super::block_sum_laws::hold;
use super::block_sum_made::fits;
use super::block_sum_orders::step;
use super::call::compare;
use super::case::{Case, Operand};
use super::limits::*;
use super::operations::{EMPTY, OPEN, PUT};
use super::random::Random;
use super::reading_records::{Entry, Records};
use super::tally::Record;
use crate::model::block_sum::BlockSumAnswer;
use crate::model::layout::FileNumber;
use crate::model::running_sum::RunningSum;
use crate::model::words::Word;

/// For each width; and the most records of each.
const BLOCKS: u64 = 60;
const MOST_COUNT: u64 = 60;

/// At least one block in so many is to be put without a refusal.
const AT_LEAST_ONE_IN: u64 = 3;

/// A running sum of the least width has no depth.
const LEAST_RUNNING_WIDTH: u32 = LEAST_WIDTH + 1;

pub fn by_puts(random: &mut Random, record: &mut Record) {
    let (mut all, mut whole) = (0, 0);
    for width in LEAST_RUNNING_WIDTH..=MOST_BLOCK_SUM_WIDTH {
        for _ in 0..BLOCKS {
            let depth = 1 + random.below((width - LEAST_WIDTH) as u64);
            let highest = MOST_UNIT - depth as i32;
            let unit = LEAST_UNIT + random.below((highest - LEAST_UNIT + 1) as u64) as i32;
            let records = Records::of(&any_entries(random, width));
            let case = records.block(width, unit);
            let block = hold(&case, record);
            all += 1;
            whole += put_all(&case, depth, block, record) as u64;
        }
    }
    record.check(whole * AT_LEAST_ONE_IN >= all, || {
        format!("{} of {} blocks put without a refusal", whole, all)
    });
}

/// Mostly numbers so small that every put fits; some blocks are made to fit in halves.
fn any_entries(random: &mut Random, width: u32) -> Vec<Entry> {
    let count = random.below(MOST_COUNT + 1) as usize;
    if random.once_in(4) {
        return fits(random, width, count);
    }
    let digits = 1 + random.below((width as u64).saturating_sub(6).max(1));
    let entry = |_| {
        let number = random.next() as FileNumber >> (64 - digits);
        (number, random.below(2) as u8)
    };
    (0..count).map(entry).collect()
}

/// Answers whether no put was refused.
fn put_all(case: &BlockSumCase, depth: u64, block: BlockSumAnswer, record: &mut Record) -> bool {
    let nothing = Operand {
        number: 0,
        round: 0,
        width: case.width,
        unit: case.unit,
    };
    let opened = compare(OPEN, &Case::deep(nothing, depth), record).sum;
    let mut running: RunningSum = opened.expect("a running sum in the answer");
    // The sums of the same words, from left to right.
    let mut so_far = Some(nothing);
    for (&number, &round) in case.numbers.iter().zip(case.rounds) {
        let word = Operand {
            number,
            round,
            ..nothing
        };
        so_far = step(so_far.unwrap_or(nothing), word, record);
        let reply = compare(PUT, &Case::on(running, word), record);
        record.check((reply.refusal == 0) == so_far.is_some(), || {
            format!(
                "a put refused as the sum\n  case:    {}\n  library: {:?}\n  sum:     {:?}",
                case.describe(),
                reply,
                so_far
            )
        });
        if reply.refusal != 0 || so_far.is_none() {
            return false;
        }
        running = reply.sum.expect("a running sum in the answer");
    }
    let emptied = compare(EMPTY, &Case::on(running, Operand::BLANK), record);
    let as_sum = so_far.map(Operand::fields) == Some(emptied.word);
    let as_block = block.refusal != 0 || emptied.word == block.word.fields();
    record.check(emptied.refusal == 0 && as_sum && as_block, || {
        format!(
            "emptied it is the block sum\n  case:    {}\n  library: {:?}\n  block:   {:?}",
            case.describe(),
            emptied,
            block
        )
    });
    true
}
