//! Random blocks of up to some thousand records, over all widths and units.

use super::block_sum_case::{expect, refused, BlockSumCase};
use super::block_sum_laws::hold;
use super::block_sum_made::{fits, fits_with_ones, past_at_last, past_within};
use super::block_sum_spoilt::spoil;
use super::limits::*;
use super::random::Random;
use super::reading_records::{Entry, Records};
use super::tally::Record;
use crate::model::layout::FileNumber;

/// For each way and each width.
const BLOCKS: u64 = 30;
const MOST_COUNT: u64 = 3_000;

/// Of numbers of every size, more; and each of done and 8 is to be one in so many.
const BLOCKS_OF_EVERY_SIZE: u64 = 80;
const AT_LEAST_ONE_IN: u64 = 5;

/// One for every width and unit.
const MOST_COUNT_OF_UNITS: u64 = 12;

/// For each width.
const BLOCKS_WITH_BAD: u64 = 80;

/// One way to make the records of a width, so many.
pub struct Way {
    pub name: &'static str,
    pub least_count: u64,
    pub make: fn(&mut Random, u32, usize) -> Vec<Entry>,
    /// What the library must answer.
    pub refusal: u32,
}

const fn way(
    name: &'static str,
    least_count: u64,
    make: fn(&mut Random, u32, usize) -> Vec<Entry>,
    refusal: u32,
) -> Way {
    Way {
        name,
        least_count,
        make,
        refusal,
    }
}

pub const WAYS: &[Way] = &[
    way("every step fits", 0, fits, 0),
    way("every step fits, round bits 1", 0, fits_with_ones, 0),
    way("a step does not fit, the whole would", 3, past_within, 8),
    way("only the last step does not fit", 2, past_at_last, 8),
];

/// Few records as often as many.
fn any_count(random: &mut Random, least: u64) -> usize {
    let most = match random.below(4) {
        0 => 9,
        1 => 200,
        _ => MOST_COUNT,
    };
    (least + random.below(most - least + 1)) as usize
}

pub fn any_unit(random: &mut Random) -> i32 {
    LEAST_UNIT + random.below(UNITS) as i32
}

/// Holds the block to every law, and to what it was made for.
pub fn hold_made(case: &BlockSumCase, way: &Way, record: &mut Record) {
    let answer = hold(case, record);
    // Blocks that end otherwise would pass, and show nothing of what they are for.
    record.check(answer.refusal == way.refusal, || {
        format!(
            "a block as it is made: {}\n  case:    {}\n  library: {:?}",
            way.name,
            case.describe(),
            answer
        )
    });
}

pub fn of_way(random: &mut Random, way: &Way, record: &mut Record) {
    for width in LEAST_WIDTH..=MOST_BLOCK_SUM_WIDTH {
        for _ in 0..BLOCKS {
            let count = any_count(random, way.least_count);
            let records = Records::of(&(way.make)(random, width, count));
            hold_made(&records.block(width, any_unit(random)), way, record);
        }
    }
}

/// Records whose numbers have at most so many digits, with a round bit once in so many.
pub fn of_digits(random: &mut Random, digits: u64, seldom: u64, count: usize) -> Vec<Entry> {
    let entry = |_| {
        let number = random.next() as FileNumber >> (64 - digits);
        (number, random.once_in(seldom) as u8)
    };
    (0..count).map(entry).collect()
}

/// Numbers of some digits each, with round bits seldom or often. Half of the blocks
/// have numbers of about as many digits as their sum has room for.
fn every_size(random: &mut Random, width: u32, count: usize) -> Vec<Entry> {
    let most_digits = width as u64;
    let near = most_digits.saturating_sub(count.ilog2() as u64 / 2 + 1);
    let digits = match random.below(2) {
        0 => 1 + random.below(most_digits),
        _ => (near + random.below(3)).clamp(1, most_digits),
    };
    let seldom = random.one_of(&[1, 2, 50, 1000, 1 << 40]);
    of_digits(random, digits, seldom, count)
}

pub fn of_every_size(random: &mut Random, record: &mut Record) {
    let (mut done, mut refused, mut all) = (0, 0, 0);
    for width in LEAST_WIDTH..=MOST_BLOCK_SUM_WIDTH {
        for _ in 0..BLOCKS_OF_EVERY_SIZE {
            let count = any_count(random, 1);
            let records = Records::of(&every_size(random, width, count));
            let answer = hold(&records.block(width, any_unit(random)), record);
            done += (answer.refusal == 0) as u64;
            refused += (answer.refusal == 8) as u64;
            all += 1;
        }
    }
    let often = done.min(refused) * AT_LEAST_ONE_IN >= all;
    record.check(often, || {
        format!("done {} and 8 {} times in {}", done, refused, all)
    });
}

/// Every two of them, with few records.
pub fn every_width_and_unit(random: &mut Random, record: &mut Record) {
    for width in LEAST_WIDTH..=MOST_BLOCK_SUM_WIDTH {
        for unit in LEAST_UNIT..=MOST_UNIT {
            let way = &WAYS[random.below(WAYS.len() as u64) as usize];
            let count = way.least_count + random.below(MOST_COUNT_OF_UNITS);
            let records = Records::of(&(way.make)(random, width, count as usize));
            hold_made(&records.block(width, unit), way, record);
        }
    }
}

/// Blocks of every way with a bad record, at first, at last or anywhere, and some with
/// two: 3 goes before 8, and the first bad record's index goes with it.
pub fn with_bad_records(random: &mut Random, record: &mut Record) {
    for width in LEAST_WIDTH..=MOST_BLOCK_SUM_WIDTH {
        for _ in 0..BLOCKS_WITH_BAD {
            let way = &WAYS[random.below(WAYS.len() as u64) as usize];
            let count = any_count(random, way.least_count.max(1));
            let mut records = Records::of(&(way.make)(random, width, count));
            let mut first = count;
            for _ in 0..random.one_of(&[1, 1, 2]) {
                let any = random.below(count as u64) as usize;
                let place = random.one_of(&[0, count - 1, any, any]);
                spoil(random, width, &mut records, place);
                first = first.min(place);
            }
            let case = records.block(width, any_unit(random));
            expect("bad records", &case, refused(3, first), record);
            hold(&case, record);
        }
    }
}
