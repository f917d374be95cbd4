//! Readings that are refused: each cause in all its ways and places, and what
//! must not be looked at.

use super::limits::*;
use super::random::Random;
use super::reading_case::{expect, ReadingCase};
use super::reading_laws::{hold, refused};
use super::reading_records::{spoilt, Records};
use super::tally::Record;
use crate::model::kinds::{Kind, KINDS};
use crate::model::layout::FileNumber;

/// Widths that are one and that are none, of a reading, a file or any word; some
/// are good ones to a program that drops digits.
const ANY_WIDTHS: [u32; 20] = [
    0,
    LEAST_WIDTH - 1,
    LEAST_WIDTH,
    LEAST_WIDTH + 1,
    12,
    MOST_READING_WIDTH - 1,
    MOST_READING_WIDTH,
    MOST_READING_WIDTH + 1,
    MOST_READING_WIDTH + 2,
    FIRST_LAYOUT.most_width as u32,
    FIRST_LAYOUT.most_width as u32 + 1,
    MOST_FILE_WIDTH as u32,
    MOST_FILE_WIDTH as u32 + 1,
    MOST_WIDTH,
    MOST_WIDTH + 1,
    256 + LEAST_WIDTH,
    256 + MOST_READING_WIDTH,
    65_536 + 12,
    1 << 31,
    u32::MAX,
];

/// The kinds, those after them, and every kind with one digit more.
fn any_kinds() -> Vec<u32> {
    let good = || KINDS.iter().map(|kind| kind.byte as u32);
    let mut kinds: Vec<u32> = good().collect();
    kinds.extend([NO_KIND as u32, NO_KIND as u32 + 1, u32::MAX - 1, u32::MAX]);
    kinds.extend((2..u32::BITS).flat_map(|digit| good().map(move |byte| 1 << digit | byte)));
    kinds
}

/// What records are made by where the kind or the width is none.
fn nearest_good(kind: u32, width: u32) -> (Kind, u32) {
    let kind = row_of_kind(kind.min(LAST_KIND as u32) as u8);
    (kind, width.clamp(LEAST_WIDTH, MOST_READING_WIDTH))
}

/// Every kind with every width, on runs good and bad, of good and bad records.
pub fn kinds_and_widths(random: &mut Random, record: &mut Record) {
    for kind in any_kinds() {
        for width in ANY_WIDTHS {
            let (good_kind, good_width) = nearest_good(kind, width);
            let good = Records::good(random, good_kind, good_width, 3);
            let mut bad = good.clone();
            bad.spoil(random, good_kind, good_width, 1);
            for records in [good, bad] {
                let whole = records.whole(kind, width);
                for (first, length) in [(0, 3), (1, 1), (2, 1), (0, 0), (1, 3), (usize::MAX, 2)] {
                    hold(&whole.run(first, length), record);
                }
            }
        }
    }
}

/// Fewer numbers than round bits and the other way round, with all short runs;
/// then lengths that are alike to a program that drops digits.
pub fn unlike_lengths(random: &mut Random, record: &mut Record) {
    for kind in 0..=NO_KIND as u32 {
        for width in [LEAST_WIDTH - 1, LEAST_WIDTH, MOST_READING_WIDTH] {
            let (good_kind, good_width) = nearest_good(kind, width);
            let records = Records::good(random, good_kind, good_width, 4);
            for first in 0..6 {
                for length in 0..6 {
                    let case = records.whole(kind, width).run(first, length);
                    of_every_length(case, record);
                }
            }
        }
    }
    for kind in KINDS {
        for (few, many) in [(0, 256), (2, 258), (1, 65_537), (3, 65_539)] {
            let records = Records::good(random, *kind, MOST_READING_WIDTH, many);
            for (first, length) in [(0, few), (0, 1), (0, many), (few, 1), (0, 0)] {
                let case = records
                    .whole(kind.byte as u32, MOST_READING_WIDTH)
                    .run(first, length);
                hold(&case.of_lengths(few, many), record);
                hold(&case.of_lengths(many, few), record);
            }
        }
    }
}

fn of_every_length(case: ReadingCase, record: &mut Record) {
    for numbers in 0..=case.numbers.len() {
        for rounds in 0..=case.rounds.len() {
            hold(&case.of_lengths(numbers, rounds), record);
        }
    }
}

/// Near to each of these, and to 2^64, which is near to 0: two of them add up to
/// little in 64 digits, or one of them counts few bytes, or few records in less.
const FAR: [usize; 8] = [
    0,
    1 << 8,
    1 << 16,
    1 << 31,
    1 << 32,
    1 << 61,
    1 << 62,
    1 << 63,
];

fn near_and_far(count: usize) -> Vec<usize> {
    let mut all = Vec::new();
    for far in FAR {
        all.extend([far.wrapping_sub(2), far.wrapping_sub(1), far]);
        all.extend([1, 2, count.max(1) - 1, count, count + 1].map(|off| far + off));
    }
    all.sort_unstable();
    all.dedup();
    all
}

/// Firsts and lengths of every size. The records are good, or all of them bad.
pub fn runs(random: &mut Random, record: &mut Record) {
    for count in [0, 1, 2, 3, 8, 300] {
        for first in near_and_far(count) {
            for length in near_and_far(count) {
                let kind = random.one_of(KINDS);
                let width = LEAST_WIDTH + random.below(READING_WIDTHS) as u32;
                let mut records = Records::good(random, kind, width, count);
                let good = records.whole(kind.byte as u32, width);
                hold(&good.run(first, length), record);
                for place in 0..count {
                    records.put(place, (FileNumber::MIN, 255));
                }
                let bad = records.whole(kind.byte as u32, width);
                hold(&bad.run(first, length), record);
            }
        }
    }
}

/// One record bad, in every way and every place: in the run it is 3, outside the
/// run the answer is as if it were good.
pub fn bad_record(random: &mut Random, record: &mut Record) {
    const COUNT: usize = 5;
    for &kind in KINDS {
        for width in [
            LEAST_WIDTH,
            3,
            13,
            16,
            MOST_READING_WIDTH - 1,
            MOST_READING_WIDTH,
        ] {
            let good = Records::good(random, kind, width, COUNT);
            let whole = good.whole(kind.byte as u32, width);
            for first in 0..COUNT {
                for length in 1..=COUNT - first {
                    let answer = hold(&whole.run(first, length), record);
                    for place in 0..COUNT {
                        let inside = (first..first + length).contains(&place);
                        let expected = if inside { refused(3) } else { answer };
                        for entry in spoilt(kind, width, good.get(place)) {
                            let mut bad = good.clone();
                            bad.put(place, entry);
                            let case = bad.whole(kind.byte as u32, width).run(first, length);
                            expect("one record bad", &case, expected, record);
                        }
                    }
                }
            }
        }
    }
}
