//! Runs of round-bit words worked by hand whose last word is exactly half its unit off:
//! "within half its unit" allows it, and "strictly closer" is said of half-unit words
//! alone.

use super::move_case::ROUND_BIT;
use super::move_ends::off_and_half_its_unit;
use super::move_sheet::{expect_line, word, Line};
use super::random::Random;
use super::tally::Record;
use crate::model::moves::Move::{Cut, SignChange};

/// What each move answers stands above its line, then the value at first and at last, in
/// units of the first word.
#[rustfmt::skip] // one line by hand, one line here
const HALF_OFF: &[Line] = &[
    // (1,0). 0, and digit 0 of 1 is 1. 2, then 4; half of 4 off.
    (4, (2, 0), &[Cut(1), Cut(1)], 2, (0, 1)),
    // (-3,1). -3 is 1101: (-2,1). -1, and digit 0 of -2 is 0. 2, then -4.
    (4, (2, 0), &[SignChange, Cut(1), Cut(1)], 2, (-1, 0)),
    // (0,1). (-1,0). (-1,1). (0,0). 2, then 0.
    (4, (1, 1), &[Cut(1), SignChange, Cut(1), SignChange], 2, (0, 0)),
    // (2,0), and the old round bit is gone. 5, then -4; half of 2 off.
    (5, (4, 1), &[Cut(1), SignChange], 1, (-3, 1)),
    // P6 in two cuts: (-359,0). -180, and -359 is odd. -718, then -179 * 4 = -716.
    (11, (-718, 0), &[Cut(1), Cut(1)], 2, (-180, 1)),
    // (12,0). (6,0). (-7,1). (-7,1). -7 is 11001: (-2,0). (1,1). -12, then 16; half of 8 off.
    (6, (-13, 1), &[SignChange, Cut(1), SignChange, Cut(0), Cut(2), SignChange], 3, (1, 1)),
    // 2^60: (1,0). (-2,1). -1, and digit 0 of -2 is 0. Then -2^61.
    (63, (1_152_921_504_606_846_976, 0), &[Cut(60), SignChange, Cut(1)], 61, (-1, 0)),
    // 2^60 - 1 and 1: 2^30 - 1 and a 1. 0 and digit 30, a 0. 2^60, then 0.
    (63, (1_152_921_504_606_846_975, 1), &[Cut(30), Cut(31)], 61, (0, 0)),
];

pub fn done(_: &mut Random, record: &mut Record) {
    for line in HALF_OFF {
        expect_line(&ROUND_BIT, line, record);
        // A line that is closer would pass, and show nothing of the half.
        let &(width, before, moves, depth, after) = line;
        let last = word(width - depth, depth as i32, after).fields();
        let first = word(width, 0, before);
        let (off, half) = off_and_half_its_unit(&ROUND_BIT, first, moves, last);
        record.check(off == half, || {
            format!("a line that is half its unit off: {:?}", line)
        });
    }
}
