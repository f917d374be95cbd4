//! Block sums with several causes at once: every set of them, each with the one that
//! document 02, Ask 9 names first.

use super::block_sum_case::{expect, refused, BlockSumCase};
use super::block_sum_laws::hold;
use super::block_sum_made::{fits, past_at_last, past_within};
use super::block_sum_random::any_unit;
use super::block_sum_spoilt::bad_numbers;
use super::limits::*;
use super::random::Random;
use super::reading_records::{bad_rounds, Records};
use super::tally::Record;
use crate::model::kinds::ROUND_BIT;

/// How often each set is made anew.
const DRAWS: u64 = 400;

/// What can be wrong, one bit for each, in the order of the ask.
const UNLIKE: u32 = 1;
const WIDTH: u32 = 2;
const UNIT: u32 = 4;
const NUMBER: u32 = 8;
const ROUND: u32 = 16;
const STEP: u32 = 32;
const ALL_CAUSES: u32 = 64;

const BAD_WIDTHS: [u32; 9] = [
    0,
    LEAST_WIDTH - 1,
    MOST_BLOCK_SUM_WIDTH + 1,
    MOST_WIDTH,
    MOST_WIDTH + 1,
    256 + LEAST_WIDTH,
    256 + MOST_BLOCK_SUM_WIDTH,
    1 << 31,
    u32::MAX,
];

const BAD_UNITS: [i32; 6] = [LEAST_UNIT - 1, MOST_UNIT + 1, 256, -256, i32::MIN, i32::MAX];

pub fn several_causes(random: &mut Random, record: &mut Record) {
    for causes in 0..ALL_CAUSES {
        for _ in 0..DRAWS {
            with_causes(random, causes, record);
        }
    }
}

fn with_causes(random: &mut Random, causes: u32, record: &mut Record) {
    let has = |cause: u32| causes & cause != 0;
    let width = LEAST_WIDTH + random.below((MOST_BLOCK_SUM_WIDTH - LEAST_WIDTH + 1) as u64) as u32;
    let count = 3 + random.below(10) as usize;
    let make = match has(STEP) {
        false => fits,
        true => random.one_of(&[past_within, past_at_last]),
    };
    let mut records = Records::of(&make(random, width, count));
    let mut first_bad = count;
    for cause in [NUMBER, ROUND] {
        if has(cause) {
            let place = random.below(count as u64) as usize;
            let (mut number, mut round) = records.get(place);
            match cause {
                NUMBER => number = random.one_of(&bad_numbers(width)),
                _ => round = random.one_of(&bad_rounds(ROUND_BIT)),
            }
            records.put(place, (number, round));
            first_bad = first_bad.min(place);
        }
    }
    let good = records.block(width, any_unit(random));
    let case = spoil_rest(random, causes, good);
    let expected = if has(UNLIKE) {
        refused(12, 0)
    } else if has(WIDTH) {
        refused(1, 0)
    } else if has(UNIT) {
        refused(2, 0)
    } else if has(NUMBER | ROUND) {
        refused(3, first_bad)
    } else if has(STEP) {
        refused(8, 0)
    } else {
        hold(&case, record);
        return;
    };
    expect("several causes at once", &case, expected, record);
}

/// The causes that do not stand in a record.
fn spoil_rest<'a>(random: &mut Random, causes: u32, good: BlockSumCase<'a>) -> BlockSumCase<'a> {
    let has = |cause: u32| causes & cause != 0;
    let mut case = good;
    if has(WIDTH) {
        case.width = random.one_of(&BAD_WIDTHS);
    }
    if has(UNIT) {
        case.unit = random.one_of(&BAD_UNITS);
    }
    if has(UNLIKE) {
        let count = case.numbers.len();
        let fewer = random.below(count as u64) as usize;
        let (numbers, rounds) = random.one_of(&[(count, fewer), (fewer, count)]);
        case = case.of_lengths(numbers, rounds);
    }
    case
}
