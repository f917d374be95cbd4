//! Block sums refused by hand by document 02, Ask 9, beside those of the sheet.

use super::block_sum_case::{done, expect, refused};
use super::random::Random;
use super::reading_records::{Entry, Records};
use super::tally::Record;

/// Width, unit, the records, and how many numbers and round bits of them are lent; the
/// refusal and its index.
type Line = (u32, i32, &'static [Entry], (usize, usize), (u32, usize));

/// The blocks of the lines: one that is good, one with a step past width 2, 1 + 1, and
/// some whose bad records stand at 0, at 1, at 2, at 1 and 3, and everywhere.
const GOOD: &[Entry] = &[(1, 0), (-1, 1), (0, 0)];
const PAST: &[Entry] = &[(0, 0), (1, 0), (1, 0)];
const AT_0: &[Entry] = &[(0, 2), (1, 0), (1, 0)];
const AT_1: &[Entry] = &[(1, 0), (2, 0), (1, 0)];
const AT_2: &[Entry] = &[(1, 0), (1, 0), (-3, 0)];
const AT_1_AND_3: &[Entry] = &[(1, 1), (1, 255), (1, 1), (9_223_372_036_854_775_807, 0)];
const EVERYWHERE: &[Entry] = &[(-9_223_372_036_854_775_808, 255); 4];

#[rustfmt::skip] // one line by hand, one line here
const LINES: &[Line] = &[
    // 12 before all else.
    (2, 0, GOOD, (3, 2), (12, 0)),
    (2, 0, GOOD, (2, 3), (12, 0)),
    (2, 0, GOOD, (0, 3), (12, 0)),
    (2, 0, GOOD, (3, 0), (12, 0)),
    (2, 0, GOOD, (0, 1), (12, 0)),
    (2, 0, GOOD, (1, 0), (12, 0)),
    (1, 0, GOOD, (3, 2), (12, 0)),
    (49, 0, GOOD, (2, 3), (12, 0)),
    (2, 128, GOOD, (3, 1), (12, 0)),
    (0, -128, EVERYWHERE, (4, 3), (12, 0)),
    (2, 0, EVERYWHERE, (3, 4), (12, 0)),
    (2, 0, AT_1, (3, 2), (12, 0)),
    (2, 0, PAST, (3, 2), (12, 0)),
    // Then 1, with no records as well.
    (0, 0, GOOD, (3, 3), (1, 0)),
    (1, 0, GOOD, (3, 3), (1, 0)),
    (49, 0, GOOD, (3, 3), (1, 0)),
    (63, 0, GOOD, (3, 3), (1, 0)),
    (64, 0, GOOD, (3, 3), (1, 0)),
    (4_294_967_295, 0, GOOD, (3, 3), (1, 0)),
    (49, 0, GOOD, (0, 0), (1, 0)),
    (1, 0, GOOD, (0, 0), (1, 0)),
    (1, 128, GOOD, (3, 3), (1, 0)),
    (49, -128, EVERYWHERE, (4, 4), (1, 0)),
    (0, 0, AT_1, (3, 3), (1, 0)),
    (1, 0, PAST, (3, 3), (1, 0)),
    // Then 2.
    (2, 128, GOOD, (3, 3), (2, 0)),
    (2, -128, GOOD, (3, 3), (2, 0)),
    (48, 2_147_483_647, GOOD, (3, 3), (2, 0)),
    (48, -2_147_483_648, GOOD, (3, 3), (2, 0)),
    (48, 128, GOOD, (0, 0), (2, 0)),
    (2, 256, GOOD, (1, 1), (2, 0)),
    (2, -128, AT_0, (3, 3), (2, 0)),
    (2, 128, AT_2, (3, 3), (2, 0)),
    (2, 128, PAST, (3, 3), (2, 0)),
    (48, 128, EVERYWHERE, (4, 4), (2, 0)),
    // Then 3, by the first bad record.
    (2, 0, AT_0, (3, 3), (3, 0)),
    (2, 0, AT_0, (1, 1), (3, 0)),
    (2, -127, AT_1, (3, 3), (3, 1)),
    (2, 127, AT_2, (3, 3), (3, 2)),
    (2, 0, AT_1_AND_3, (4, 4), (3, 1)),
    (48, 0, AT_1_AND_3, (2, 2), (3, 1)),
    (48, 0, EVERYWHERE, (4, 4), (3, 0)),
    (48, 0, EVERYWHERE, (1, 1), (3, 0)),
    // 1 + 1 is past, but the bad record behind it goes first, and one before it too.
    (2, 0, &[(0, 0), (1, 0), (1, 0), (2, 0)], (4, 4), (3, 3)),
    (2, 0, &[(1, 0), (1, 0), (0, 0), (0, 2)], (4, 4), (3, 3)),
    (2, 0, &[(-3, 0), (0, 0), (1, 0), (1, 0)], (4, 4), (3, 0)),
    // The first numbers outside the ends of width 48.
    (48, 0, &[(0, 0), (140_737_488_355_328, 0)], (2, 2), (3, 1)),
    (48, 0, &[(-140_737_488_355_329, 1), (0, 0)], (2, 2), (3, 0)),
    // 2^32 and 2^48 - 1 have low digits that are good at width 2 and at 48.
    (2, 0, &[(1, 0), (4_294_967_296, 0)], (2, 2), (3, 1)),
    (48, 0, &[(1, 0), (0, 0), (281_474_976_710_655, 0)], (3, 3), (3, 2)),
    // Then 8.
    (2, 0, PAST, (3, 3), (8, 0)),
    (2, -127, PAST, (3, 3), (8, 0)),
    (2, 127, &[(-2, 0), (-2, 0), (1, 0), (1, 0)], (4, 4), (8, 0)),
];

/// A bad record that is not lent is none, and in a wider width it may be a good one:
/// width, the records, how many of them are lent, and their sum.
#[rustfmt::skip]
const DONE: &[(u32, &[Entry], usize, Entry)] = &[
    (2, AT_1, 1, (1, 0)),
    // 1 + 2.
    (3, AT_1, 2, (3, 0)),
    // 1, and 1 - 3 = -2.
    (3, AT_2, 3, (-1, 0)),
    (2, EVERYWHERE, 0, (0, 0)),
];

pub fn by_hand(_: &mut Random, record: &mut Record) {
    for &(width, unit, entries, (numbers, rounds), (refusal, index)) in LINES {
        let records = Records::of(entries);
        let case = records.block(width, unit).of_lengths(numbers, rounds);
        let expected = refused(refusal, index);
        expect("a block sum refused by hand", &case, expected, record);
    }
    for &(width, entries, count, (number, round)) in DONE {
        let records = Records::of(entries);
        let case = records.block(width, 0).of_lengths(count, count);
        let expected = done(width, 0, number as i128, round as i128);
        expect("a block sum not refused by hand", &case, expected, record);
    }
}
