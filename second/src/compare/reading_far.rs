//! Readings of numbers far outside their width: the lent numbers have 64 digits,
//! and a reading's at most 24. A number counts with all its digits, so one that is
//! good in its low ones alone is refused by 3.

use super::file_laws::is_good_record;
use super::limits::*;
use super::random::Random;
use super::reading_case::expect;
use super::reading_laws::{hold, refused};
use super::reading_records::{Entry, Records};
use super::tally::Record;
use crate::model::kinds::{Kind, KINDS};
use crate::model::layout::FileNumber;

const COUNT: usize = 3;

/// The record in every place: in the run it is 3 if it is bad, and outside the run
/// it changes nothing.
fn in_each_place(kind: Kind, width: u32, good: &Records, entry: Entry, record: &mut Record) {
    let byte = kind.byte as u32;
    let is_good = is_good_record(byte, width, entry.0, entry.1);
    for place in 0..COUNT {
        let mut records = good.clone();
        records.put(place, entry);
        for (first, length) in [
            (0, COUNT),
            (place, 1),
            (0, place),
            (place + 1, COUNT - place - 1),
        ] {
            let case = records.whole(byte, width).run(first, length);
            let inside = (first..first + length).contains(&place);
            if inside && !is_good {
                expect("a number far outside", &case, refused(3), record);
            } else {
                hold(&case, record);
            }
        }
    }
}

/// Where a program may cut a number.
const CUTS: [u32; 8] = [8, 16, 24, 31, 32, 40, 48, 56];

/// Good numbers with digits above those that a program may keep.
pub fn digits_above(random: &mut Random, record: &mut Record) {
    for &kind in KINDS {
        for width in LEAST_WIDTH..=MOST_READING_WIDTH {
            let good = Records::good(random, kind, width, COUNT);
            for cut in CUTS {
                for times in [1, -1, random.next() as FileNumber] {
                    let (number, round) = good.get(0);
                    let entry = (number.wrapping_add(times << cut), round);
                    in_each_place(kind, width, &good, entry, record);
                }
            }
        }
    }
}

/// 2^k and its like with all digits from k up, and those beside them.
pub fn every_size(random: &mut Random, record: &mut Record) {
    for &kind in KINDS {
        for width in [LEAST_WIDTH, 9, MOST_READING_WIDTH - 1, MOST_READING_WIDTH] {
            let good = Records::good(random, kind, width, COUNT);
            for digit in 0..FileNumber::BITS {
                let (power, up): (FileNumber, FileNumber) = (1 << digit, -1 << digit);
                for number in [power, power.wrapping_sub(1), up, up.wrapping_sub(1)] {
                    in_each_place(kind, width, &good, (number, 0), record);
                }
            }
        }
    }
}
