//! Block sums that are refused: each cause in all its ways and places.

use super::block_sum_case::{expect, refused, BlockSumCase};
use super::block_sum_laws::hold;
use super::block_sum_made::{fits, past_within};
use super::block_sum_random::any_unit;
use super::block_sum_spoilt::{spoil, spoilt};
use super::edges::EDGE_UNITS;
use super::limits::*;
use super::random::Random;
use super::reading_records::Records;
use super::tally::Record;
use crate::model::layout::FileNumber;

/// Widths that are one and that are none, of a block sum, a file, a reading or any
/// word; some are good ones to a program that drops digits.
const ANY_WIDTHS: [u32; 18] = [
    0,
    LEAST_WIDTH - 1,
    LEAST_WIDTH,
    LEAST_WIDTH + 1,
    MOST_READING_WIDTH,
    MOST_READING_WIDTH + 1,
    FIRST_LAYOUT.most_width as u32,
    FIRST_LAYOUT.most_width as u32 + 1,
    MOST_BLOCK_SUM_WIDTH - 1,
    MOST_BLOCK_SUM_WIDTH,
    MOST_BLOCK_SUM_WIDTH + 1,
    MOST_WIDTH,
    MOST_WIDTH + 1,
    256 + LEAST_WIDTH,
    256 + MOST_BLOCK_SUM_WIDTH,
    65_536 + 12,
    1 << 31,
    u32::MAX,
];

/// Units that drop to a good one.
const FAR_UNITS: [i32; 6] = [256, -256, 65_536, 1 << 30, 255, -255];

/// Every width with every unit, for blocks with nothing wrong, a step that does not
/// fit, a bad record, none at all, and of unlike lengths.
pub fn widths_and_units(random: &mut Random, record: &mut Record) {
    for width in ANY_WIDTHS {
        let good_width = width.clamp(LEAST_WIDTH, MOST_BLOCK_SUM_WIDTH);
        for unit in EDGE_UNITS.into_iter().chain(FAR_UNITS) {
            let good = Records::of(&fits(random, good_width, 5));
            let past = Records::of(&past_within(random, good_width, 5));
            let mut bad = good.clone();
            spoil(random, good_width, &mut bad, 3);
            for records in [&good, &past, &bad] {
                let block = records.block(width, unit);
                for (numbers, rounds) in [(5, 5), (0, 0), (5, 4), (4, 5), (0, 1), (1, 0)] {
                    hold(&block.of_lengths(numbers, rounds), record);
                }
            }
        }
    }
}

/// One record of a few bad in every way, in every place, at every width.
pub fn one_bad_record(random: &mut Random, record: &mut Record) {
    const COUNT: usize = 5;
    for width in LEAST_WIDTH..=MOST_BLOCK_SUM_WIDTH {
        for make in [fits, past_within] {
            let good = Records::of(&make(random, width, COUNT));
            for place in 0..COUNT {
                for entry in spoilt(width, good.get(place)) {
                    let mut bad = good.clone();
                    bad.put(place, entry);
                    let case = bad.block(width, any_unit(random));
                    expect("one bad record", &case, refused(3, place), record);
                }
            }
        }
    }
}

/// Every two places of a block are bad, each in any way: the first is told.
pub fn two_bad_records(random: &mut Random, record: &mut Record) {
    for count in 2..=12 {
        for first in 0..count {
            for second in first + 1..count {
                let width = random.one_of(&[LEAST_WIDTH, 17, MOST_BLOCK_SUM_WIDTH]);
                let mut records = Records::of(&fits(random, width, count));
                spoil(random, width, &mut records, first);
                spoil(random, width, &mut records, second);
                let case = records.block(width, any_unit(random));
                expect("two bad records", &case, refused(3, first), record);
            }
        }
    }
}

/// Where a program may cut a number.
const CUTS: [u32; 8] = [8, 16, 24, 31, 32, 40, 48, 56];

/// A good number with digits above those that a program may keep, in every place;
/// where the width has room for them it may still be a good one.
pub fn digits_above(random: &mut Random, record: &mut Record) {
    for width in LEAST_WIDTH..=MOST_BLOCK_SUM_WIDTH {
        let good = Records::of(&fits(random, width, 3));
        for cut in CUTS {
            for times in [1, -1, random.next() as FileNumber] {
                for place in 0..3 {
                    let (number, round) = good.get(place);
                    let mut records = good.clone();
                    records.put(place, (number.wrapping_add(times << cut), round));
                    hold(&records.block(width, 0), record);
                }
            }
        }
    }
}

/// The ends of every width, the numbers beside them and those of 64 digits, each with
/// round bytes good and bad, in every place of three.
pub fn ends(random: &mut Random, record: &mut Record) {
    for width in LEAST_WIDTH..=MOST_BLOCK_SUM_WIDTH {
        let half: FileNumber = 1 << (width - 1);
        let inside = [-half, 1 - half, half - 2, half - 1];
        let outside = [-half - 1, half, FileNumber::MIN, FileNumber::MAX];
        for number in [inside, outside].concat() {
            for round in [0, 1, 2, 255] {
                for place in 0..3 {
                    let mut records = Records::of(&[(0, 0), (-1, 1), (0, 0)]);
                    records.put(place, (number, round));
                    hold(&records.block(width, any_unit(random)), record);
                }
            }
        }
    }
}

/// Fewer numbers than round bits and the other way round; then lengths that are alike
/// to a program that drops digits.
pub fn unlike_lengths(random: &mut Random, record: &mut Record) {
    for width in [LEAST_WIDTH - 1, LEAST_WIDTH, 30, MOST_BLOCK_SUM_WIDTH] {
        let records = Records::of(&fits(random, width.max(LEAST_WIDTH), 8));
        for unit in [0, MOST_UNIT, MOST_UNIT + 1] {
            for numbers in 0..=8 {
                for rounds in 0..=8 {
                    hold(
                        &records.block(width, unit).of_lengths(numbers, rounds),
                        record,
                    );
                }
            }
        }
    }
    for (few, many) in [(0, 256), (2, 258), (1, 65_537), (3, 65_539)] {
        let records = Records::of(&fits(random, MOST_BLOCK_SUM_WIDTH, many));
        let block: BlockSumCase = records.block(MOST_BLOCK_SUM_WIDTH, 0);
        for (numbers, rounds) in [(few, many), (many, few)] {
            let case = block.of_lengths(numbers, rounds);
            expect("unlike lengths", &case, refused(12, 0), record);
        }
    }
}
