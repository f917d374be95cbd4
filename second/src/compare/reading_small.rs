//! All small blocks with all their runs, and with those just past them.

use super::exhaustive::lists_over;
use super::limits::*;
use super::random::Random;
use super::reading_case::{compare, ReadingCase};
use super::reading_laws::hold;
use super::reading_records::{Entry, Records};
use super::tally::Record;
use crate::model::kinds::KINDS;
use crate::model::layout::FileNumber;

const WIDEST: u32 = LEAST_WIDTH + 1;

/// Every number of the width and the two beside it, with round bytes that are
/// good in every kind, in some, and in none.
fn all_entries(width: u32) -> Vec<Entry> {
    let half: FileNumber = 1 << (width - 1);
    let with_rounds = |number| [0, 1, 2].map(|round| (number, round));
    (-half - 1..=half).flat_map(with_rounds).collect()
}

/// The ends of the width, both words of value 0, and two that are bad.
fn few_entries(width: u32) -> Vec<Entry> {
    let half: FileNumber = 1 << (width - 1);
    vec![
        (-half, 0),
        (half - 1, 1),
        (-1, 1),
        (0, 0),
        (half, 0),
        (0, 2),
    ]
}

/// Every first and every length from 0 to one past the count.
fn each_run(block: ReadingCase, mut call: impl FnMut(&ReadingCase)) {
    let past = block.numbers.len() + 1;
    for first in 0..=past {
        for length in 0..=past {
            call(&block.run(first, length));
        }
    }
}

/// Blocks of up to 2 records, in every kind and in two that are none, held to
/// the laws as well.
pub fn two_records(_: &mut Random, record: &mut Record) {
    for width in LEAST_WIDTH..=WIDEST {
        for count in 0..=2 {
            for entries in lists_over(&all_entries(width), count) {
                let records = Records::of(&entries);
                for kind in 0..=NO_KIND as u32 + 1 {
                    each_run(records.whole(kind, width), |case| {
                        hold(case, record);
                    });
                }
            }
        }
    }
}

/// Blocks of 3 records of the least width.
pub fn three_records(_: &mut Random, record: &mut Record) {
    all_blocks(&all_entries(LEAST_WIDTH), 3, LEAST_WIDTH, record);
}

/// Blocks of 4 records, which are of few sorts.
pub fn four_records(_: &mut Random, record: &mut Record) {
    for width in LEAST_WIDTH..=WIDEST {
        all_blocks(&few_entries(width), 4, width, record);
    }
}

fn all_blocks(entries: &[Entry], count: u32, width: u32, record: &mut Record) {
    for entries in lists_over(entries, count) {
        let records = Records::of(&entries);
        for kind in KINDS {
            each_run(records.whole(kind.byte as u32, width), |case| {
                compare(case, record);
            });
        }
    }
}
