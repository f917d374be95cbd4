//! Readings refused by hand by document 02, Ask 4, beside those of the sheet.

use super::random::Random;
use super::reading_laws;
use super::reading_records::{Entry, Records};
use super::reading_sheet::{by_hand, is};
use super::tally::Record;

/// Three records; those of the first are good in every kind and every width, of
/// the second and third one is bad in every kind and every width.
const GOOD: &[Entry] = &[(1, 0), (-2, 0), (0, 0)];
const BAD_NUMBER: &[Entry] = &[(1, 0), (8_388_608, 0), (0, 0)];
const BAD_ROUND: &[Entry] = &[(1, 0), (-2, 2), (0, 0)];

pub fn refused(_: &mut Random, record: &mut Record) {
    for entries in [GOOD, BAD_NUMBER, BAD_ROUND] {
        let records = Records::of(entries);
        let mut no = |kind, width, first, length, refusal| {
            let case = records.whole(kind, width).run(first, length);
            by_hand(case, reading_laws::refused(refusal), record);
        };
        for (first, length) in [(0, 3), (1, 1), (0, 0), (0, 4), (usize::MAX, 2)] {
            for kind in [3, 4, 255, 256, u32::MAX] {
                for width in [5, 2, 24, 0, 1, 25, u32::MAX] {
                    no(kind, width, first, length, 12);
                }
            }
            for width in [0, 1, 25, 32, 63, 64, 256 + 24, u32::MAX] {
                for kind in [0, 1, 2] {
                    no(kind, width, first, length, 1);
                }
            }
        }
        of_runs(&records, record);
        of_lengths(&records, record);
    }
    of_records(record);
}

/// Empty, or past the end by one; first and length add up to 2^64, and to a
/// little more, or to 2^64 less 1.
#[rustfmt::skip]
const NO_RUNS: &[(usize, usize)] = &[
    (0, 0), (1, 0), (2, 0), (3, 0), (4, 0), (usize::MAX, 0),
    (0, 4), (1, 3), (2, 2), (3, 1), (4, 1),
    (0, usize::MAX), (1, usize::MAX), (2, usize::MAX), (3, usize::MAX),
    (usize::MAX, 1), (usize::MAX, 2), (usize::MAX, 3), (usize::MAX, usize::MAX),
    (1 << 63, 1 << 63), (1 << 63, (1 << 63) + 1), ((1 << 63) + 1, (1 << 63) + 2),
    (1 << 32, 1), (0, 1 << 32), (0, (1 << 32) + 1), (1 << 62, 1), (1 << 61, 2),
];

fn of_runs(records: &Records, record: &mut Record) {
    for &(first, length) in NO_RUNS {
        for (kind, width) in [(0, 2), (1, 5), (2, 24)] {
            let case = records.whole(kind, width).run(first, length);
            by_hand(case, reading_laws::refused(14), record);
        }
    }
}

/// Three numbers and two round bits, or the other way round, whatever the rest is.
fn of_lengths(records: &Records, record: &mut Record) {
    for (first, length) in [(0, 2), (0, 3), (0, 1), (2, 1), (0, 0), (3, 1)] {
        for (kind, width) in [(0, 5), (1, 24), (2, 2), (0, 1), (2, 25), (3, 0)] {
            let case = records.whole(kind, width).run(first, length);
            for (numbers, rounds) in [(3, 2), (2, 3), (3, 0), (0, 3)] {
                let case = case.of_lengths(numbers, rounds);
                by_hand(case, reading_laws::refused(12), record);
            }
        }
    }
}

/// A record that is bad is 3 in the run, at its start and at its end, and the
/// good ones beside it are read.
fn of_records(record: &mut Record) {
    let bad: &[(u32, u32, Entry)] = &[
        (0, 5, (16, 0)),
        (0, 5, (-17, 0)),
        (0, 5, (0, 1)),
        (0, 24, (8_388_608, 0)),
        (0, 24, (-8_388_609, 0)),
        (1, 5, (16, 0)),
        (1, 5, (16, 1)),
        (1, 5, (-17, 1)),
        (1, 5, (15, 2)),
        (1, 2, (0, 255)),
        (2, 5, (16, 0)),
        (2, 5, (-17, 0)),
        (2, 5, (-1, 1)),
        (2, 3, (0, 128)),
        // 5, 0, -1 and 15 with digits above the 32 lowest.
        (0, 5, (4_294_967_301, 0)),
        (1, 2, (4_294_967_296, 1)),
        (2, 24, (-4_294_967_296, 0)),
        (0, 24, (4_294_967_295, 0)),
        (1, 5, (-4_294_967_281, 1)),
        (2, 24, (281_474_976_710_656, 0)),
        (0, 24, (9_223_372_036_854_775_807, 0)),
        (1, 24, (-9_223_372_036_854_775_808, 0)),
    ];
    for &(kind, width, entry) in bad {
        let records = Records::of(&[(1, 0), entry, (1, 0)]);
        for (first, length) in [(0, 3), (0, 2), (1, 2), (1, 1)] {
            let case = records.whole(kind, width).run(first, length);
            by_hand(case, reading_laws::refused(3), record);
        }
        // 2, 2 and 3.
        let bits = [0x4000_0000, 0x4000_0000, 0x4040_0000][kind as usize];
        for first in [0, 2] {
            let case = records.whole(kind, width).run(first, 1);
            by_hand(case, is([bits; 3]), record);
        }
    }
}
