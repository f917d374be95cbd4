//! Readings that are done: the ends of every width, every number of small widths,
//! what lies beside the powers of 2, and the lowest and highest in every place.

use super::limits::*;
use super::random::Random;
use super::reading_case::compare;
use super::reading_laws::hold;
use super::reading_records::{Entry, Records};
use super::tally::Record;
use crate::model::digits::power;
use crate::model::kinds::{Kind, KINDS};
use crate::model::layout::FileNumber;

/// Every number up to this width is read.
const WIDEST: u32 = 10;

/// How many records the lowest and the highest move about in, at this width.
const COUNTS: [usize; 6] = [1, 2, 3, 8, 9, 33];
const WIDTH: u32 = 12;

/// Each with every round byte that the kind has.
fn with_good_rounds(kind: Kind, numbers: impl Iterator<Item = FileNumber>) -> Vec<Entry> {
    let rounds = 0..=kind.most_round as u8;
    numbers
        .flat_map(|number| rounds.clone().map(move |round| (number, round)))
        .collect()
}

/// Every two records at the ends of every width, just inside, and just outside;
/// the round bytes too. Read together, and each alone beside the other.
pub fn ends(_: &mut Random, record: &mut Record) {
    for width in LEAST_WIDTH..=MOST_READING_WIDTH {
        let half: FileNumber = 1 << (width - 1);
        let numbers = [
            -half - 1,
            -half,
            1 - half,
            -1,
            0,
            1,
            half - 2,
            half - 1,
            half,
        ];
        let entries = numbers.map(|number| [0, 1, 2].map(|round| (number, round)));
        for first in entries.concat() {
            for second in entries.concat() {
                let records = Records::of(&[first, second]);
                for kind in KINDS {
                    let whole = records.whole(kind.byte as u32, width);
                    for (first, length) in [(0, 2), (0, 1), (1, 1)] {
                        compare(&whole.run(first, length), record);
                    }
                }
            }
        }
    }
}

/// Each record alone, and with the one behind it.
fn each(kind: Kind, width: u32, entries: &[Entry], record: &mut Record) {
    let records = Records::of(entries);
    let whole = records.whole(kind.byte as u32, width);
    hold(&whole, record);
    for first in 0..entries.len() {
        hold(&whole.run(first, 1), record);
        compare(&whole.run(first, 2), record);
    }
}

/// All good records of small widths.
pub fn every_number(_: &mut Random, record: &mut Record) {
    for &kind in KINDS {
        for width in LEAST_WIDTH..=WIDEST {
            let least = (kind.least)(width as i128) as FileNumber;
            let numbers = least..1 << (width - 1);
            each(kind, width, &with_good_rounds(kind, numbers), record);
        }
    }
}

/// Where a binary32 number gets another exponent, in the greatest width.
pub fn beside_powers(_: &mut Random, record: &mut Record) {
    for &kind in KINDS {
        let width = MOST_READING_WIDTH as i128;
        let powers = (0..width).flat_map(|digit| [power(digit), -power(digit)]);
        let beside = powers.flat_map(|power| (-3..=3).map(move |off| power + off));
        let numbers = beside
            .filter(|number| kind.fits(*number, width))
            .map(|number| number as FileNumber);
        let entries = with_good_rounds(kind, numbers);
        each(kind, MOST_READING_WIDTH, &entries, record);
    }
}

/// The lowest and the highest in every two places, among others all alike and
/// below 0, about 0 and above it; in the run, and just outside it.
pub fn everywhere(_: &mut Random, record: &mut Record) {
    for count in COUNTS {
        for others in [-1000, -2, -1, 0, 1, 1000] {
            for lowest in 0..count {
                for highest in 0..count {
                    // If both are to stand in one place, the highest does.
                    let mut records = Records::of(&vec![(others, 0); count]);
                    records.put(lowest, (others - 1, 0));
                    records.put(highest, (others + 1, 0));
                    of_all_kinds(&records, count, lowest, highest, record);
                }
            }
        }
    }
}

fn of_all_kinds(records: &Records, count: usize, one: usize, other: usize, record: &mut Record) {
    for kind in KINDS {
        let whole = records.whole(kind.byte as u32, WIDTH);
        compare(&whole, record);
        for place in [one, other] {
            compare(&whole.run(place, count - place), record);
            compare(&whole.run(0, place + 1), record);
        }
        let (before, behind) = (one.min(other), one.max(other));
        if before + 1 < behind {
            compare(&whole.run(before + 1, behind - before - 1), record);
        }
    }
}
