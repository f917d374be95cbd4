//! Blocks longer than a file's, up to a million records and one more.

use super::block_sum_case::{expect, refused};
use super::block_sum_random::{any_unit, hold_made, WAYS};
use super::block_sum_spoilt::spoil;
use super::limits::*;
use super::random::Random;
use super::reading_records::Records;
use super::tally::Record;

/// A file ends at the first; in 16 digits the later ones are few.
const COUNTS: [usize; 9] = [
    MOST_RECORDS,
    MOST_RECORDS + 1,
    20_011,
    32_767,
    32_768,
    65_535,
    65_536,
    65_537,
    100_000,
];

const WIDTHS_TO_TRY: [u32; 6] = [
    LEAST_WIDTH,
    LEAST_WIDTH + 1,
    20,
    FIRST_LAYOUT.most_width as u32 + 1,
    MOST_BLOCK_SUM_WIDTH - 1,
    MOST_BLOCK_SUM_WIDTH,
];

/// Every way, and then with a bad record at last, at first, or anywhere.
pub fn thousands(random: &mut Random, record: &mut Record) {
    for count in COUNTS {
        for way in WAYS {
            let width = random.one_of(&WIDTHS_TO_TRY);
            let mut records = Records::of(&(way.make)(random, width, count));
            hold_made(&records.block(width, any_unit(random)), way, record);
            for place in [count - 1, random.below(count as u64) as usize, 0] {
                spoil(random, width, &mut records, place);
                let case = records.block(width, any_unit(random));
                expect("a bad record", &case, refused(3, place), record);
            }
        }
    }
}

/// About 2^20, in every way; then with a bad record at last.
pub fn millions(random: &mut Random, record: &mut Record) {
    const MANY: usize = 1 << 20;
    for (way, count) in WAYS.iter().zip([MANY, MANY + 1, MANY - 1, MANY + 1]) {
        let width = random.one_of(&WIDTHS_TO_TRY);
        let mut records = Records::of(&(way.make)(random, width, count));
        hold_made(&records.block(width, any_unit(random)), way, record);
        spoil(random, width, &mut records, count - 1);
        let case = records.block(width, any_unit(random));
        expect("a bad record", &case, refused(3, count - 1), record);
    }
}
