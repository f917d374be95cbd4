//! Long block sums worked by hand from documents 01 and 02, beside those of the sheet.

use super::block_sum_case::{done, expect, refused};
use super::random::Random;
use super::reading_records::{Entry, Records};
use super::tally::Record;

/// Of 1 and -1 in turn every run makes -1, 0 or 1, so every step fits the least width.
fn in_turn(count: usize) -> Vec<Entry> {
    let sign = |i: usize| if i % 2 == 0 { 1 } else { -1 };
    (0..count).map(|i| (sign(i), 0)).collect()
}

/// Alike records make their number by their count, and all round bits but one. So the
/// step of the most records is the greatest.
pub fn by_hand(_: &mut Random, record: &mut Record) {
    let alike = |entry: Entry, count: usize| vec![entry; count];
    let lines = [
        (11, alike((1, 0), 1_000), Some((1_000, 0))),
        (10, alike((1, 0), 1_000), None),
        (10, alike((1, 0), 511), Some((511, 0))),
        (10, alike((1, 0), 512), None),
        (10, alike((-1, 0), 512), Some((-512, 0))),
        (10, alike((-1, 0), 513), None),
        (11, alike((0, 1), 1_024), Some((1_023, 1))),
        (11, alike((0, 1), 1_025), None),
        // 3,000 times 7, and 2,999.
        (16, alike((7, 1), 3_000), Some((23_999, 1))),
        // 8,000 and one more, which no file has.
        (2, in_turn(8_000), Some((0, 0))),
        (2, in_turn(8_001), Some((1, 0))),
        (2, alike((-1, 1), 8_001), Some((-1, 1))),
        // 65,536 times -2^31 is -2^47.
        (
            48,
            alike((-2_147_483_648, 0), 65_536),
            Some((-140_737_488_355_328, 0)),
        ),
        (48, alike((-2_147_483_648, 0), 65_537), None),
    ];
    for (width, entries, sum) in lines {
        let records = Records::of(&entries);
        let expected = match sum {
            Some((number, round)) => done(width, 3, number, round),
            None => refused(8, 0),
        };
        let case = records.block(width, 3);
        expect("a long block worked by hand", &case, expected, record);
    }
}
