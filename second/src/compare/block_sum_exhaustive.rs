//! All small blocks.

use super::block_sum_laws::hold;
use super::limits::*;
use super::random::Random;
use super::reading_records::{Entry, Records};
use super::tally::Record;
use crate::model::layout::FileNumber;

/// Width, and the most records that all blocks of it have.
const RIGHT: [(u32, u32); 3] = [(LEAST_WIDTH, 6), (LEAST_WIDTH + 1, 4), (LEAST_WIDTH + 2, 3)];
const WITH_WRONG: [(u32, u32); 2] = [(LEAST_WIDTH, 3), (LEAST_WIDTH + 1, 2)];

/// The most records of blocks that have few sorts of them, right and wrong.
const MOST_OF_FEW_RIGHT: u32 = 9;
const MOST_OF_FEW: u32 = 5;

const UNITS_TO_TRY: [i32; 4] = [LEAST_UNIT, -1, 0, MOST_UNIT];

/// Every number from the least to the most, with every one of these round bytes.
fn all_entries(least: FileNumber, most: FileNumber, rounds: &[u8]) -> Vec<Entry> {
    let with_rounds = |number| rounds.iter().map(move |&round| (number, round));
    (least..=most).flat_map(with_rounds).collect()
}

/// Every block of so many records, each one of these. One block after the other is
/// made in the same place: making a new one takes longer than adding it.
fn all_blocks(random: &mut Random, width: u32, entries: &[Entry], count: u32, record: &mut Record) {
    let mut records = Records::of(&vec![entries[0]; count as usize]);
    for block in 0..entries.len().pow(count) {
        let mut rest = block;
        for place in 0..count as usize {
            records.put(place, entries[rest % entries.len()]);
            rest /= entries.len();
        }
        let unit = random.one_of(&UNITS_TO_TRY);
        hold(&records.block(width, unit), record);
    }
}

/// Every number of the width, with both round bits.
pub fn right(random: &mut Random, record: &mut Record) {
    for (width, most_count) in RIGHT {
        let half: FileNumber = 1 << (width - 1);
        let entries = all_entries(-half, half - 1, &[0, 1]);
        for count in 0..=most_count {
            all_blocks(random, width, &entries, count, record);
        }
    }
}

/// The two numbers beside those of the width as well, and round bytes that are none:
/// so 3 comes from every place, and from several.
pub fn with_wrong(random: &mut Random, record: &mut Record) {
    for (width, most_count) in WITH_WRONG {
        let half: FileNumber = 1 << (width - 1);
        let entries = all_entries(-half - 1, half, &[0, 1, 2, 255]);
        for count in 0..=most_count {
            all_blocks(random, width, &entries, count, record);
        }
    }
}

/// Longer blocks of three sorts, of which any two alike are past the least width
/// together, or nearly: so it is told at every length how the block is halved.
pub fn few_right_sorts(random: &mut Random, record: &mut Record) {
    for entries in [[(1, 0), (-1, 0), (0, 0)], [(0, 1), (-2, 0), (1, 0)]] {
        for count in 0..=MOST_OF_FEW_RIGHT {
            all_blocks(random, LEAST_WIDTH, &entries, count, record);
        }
    }
}

/// Longer blocks of few sorts: the ends of the width, a word that adds nothing, and
/// three that are wrong.
pub fn few_sorts(random: &mut Random, record: &mut Record) {
    for width in [LEAST_WIDTH, LEAST_WIDTH + 1, MOST_BLOCK_SUM_WIDTH] {
        let half: FileNumber = 1 << (width - 1);
        let entries = [
            (-half, 0),
            (half - 1, 1),
            (0, 0),
            (half, 0),
            (-half - 1, 1),
            (0, 2),
        ];
        for count in 0..=MOST_OF_FEW {
            all_blocks(random, width, &entries, count, record);
        }
    }
}
