//! Runs refused by hand by document 01, in its own numbers. A run has the number of its
//! first refused move, and a cut by all depths at once may have another.

use super::move_case::{described, Moved, HALF_UNIT, ROUND_BIT};
use super::move_sheet::{expect, word};
use super::random::Random;
use super::tally::Record;
use crate::model::moves::Move::{self, Cut, SignChange};

/// Width, unit, number and round bit; the moves; how many of them are done, what refuses
/// the next, and what refuses the cut at once.
type Line = (u32, i32, (i64, u8), &'static [Move], usize, u32, u32);

/// With round bit 0, and so of both kinds.
#[rustfmt::skip] // one line by hand, one line here
const OF_BOTH: &[Line] = &[
    // A width outside goes before a unit outside and a number outside.
    (1, 0, (0, 0), &[SignChange], 0, 1, 1),
    (64, 128, (0, 0), &[Cut(0), SignChange], 0, 1, 1),
    (0, 0, (9, 0), &[Cut(7)], 0, 1, 1),
    // A unit outside goes before a number outside; -128 would be -127 after the cut.
    (5, 128, (16, 0), &[SignChange, Cut(1)], 0, 2, 2),
    (5, -128, (0, 0), &[Cut(1), SignChange], 0, 2, 2),
    // The numbers of width 5 are -16 to 15; 3 goes before 5 and 7.
    (5, 0, (16, 0), &[SignChange], 0, 3, 3),
    (5, 127, (-17, 0), &[Cut(9)], 0, 3, 3),
    // 4 digits, 4, 2, and then 1.
    (5, 0, (5, 0), &[Cut(1), SignChange, Cut(2), Cut(1)], 3, 5, 5),
    // 1 digit. The sign change behind it is not made.
    (5, 0, (5, 0), &[Cut(4), SignChange], 0, 5, 5),
    // 2 digits, 2, 2, and then 1.
    (2, 0, (1, 0), &[SignChange, SignChange, Cut(0), Cut(1)], 3, 5, 5),
    // 1 digit and unit 129: the lower number.
    (3, 127, (3, 0), &[Cut(2)], 0, 5, 5),
    // 2 digits and unit 128, which is 7 alone. At once 1 digit and unit 129.
    (3, 127, (3, 0), &[Cut(1), Cut(1)], 0, 7, 5),
    // 4 digits in unit 127, 4, and then 3 digits in unit 128. At once no digit.
    (5, 126, (5, 0), &[Cut(1), SignChange, Cut(1), Cut(3)], 2, 7, 5),
    // Unit 128 with 3 digits, at one cut and at two.
    (5, 126, (5, 0), &[SignChange, Cut(2)], 1, 7, 7),
    (5, 126, (5, 0), &[Cut(1), SignChange, SignChange, Cut(1)], 3, 7, 7),
    // 33 digits in unit 96, 33, 2 in unit 127, and then 1 in unit 128.
    (63, 66, (1, 0), &[Cut(30), SignChange, Cut(31), Cut(1)], 3, 5, 5),
    // 33 digits in unit 97, 33, and then 2 in unit 128.
    (63, 67, (1, 0), &[Cut(30), SignChange, Cut(31)], 2, 7, 7),
    // 2 digits in unit 40 after forty cuts, and then 1.
    (42, 0, (1, 0), &[Cut(1); 41], 40, 5, 5),
    // Unit 127 after twenty cuts, and then 128; at once as many digits as then.
    (42, 107, (1, 0), &[Cut(1); 21], 20, 7, 7),
    // 2^63 twice and 2^64 - 1 with 1 are 2^64 together: 0 to whoever drops the carry.
    (5, 0, (5, 0), &[SignChange, Cut(1 << 63), Cut(1 << 63)], 1, 5, 5),
    (63, -127, (5, 0), &[Cut(0), Cut((1 << 64) - 1), Cut(1)], 1, 5, 5),
    // 2^32 + 1 is 1 to whoever drops the upper half.
    (63, -127, (5, 0), &[SignChange, Cut((1 << 32) + 1)], 1, 5, 5),
];

#[rustfmt::skip]
const OF_ROUND_BITS: &[Line] = &[
    // A round bit is 0 or 1, also where the cut would drop it.
    (5, 0, (1, 2), &[SignChange], 0, 3, 3),
    (5, 0, (1, 2), &[Cut(1), SignChange], 0, 3, 3),
    (5, 0, (1, 255), &[Cut(0)], 0, 3, 3),
    // 1 and 2 go before it, 5 and 7 behind it.
    (64, 0, (1, 2), &[SignChange], 0, 1, 1),
    (5, 128, (1, 2), &[Cut(1)], 0, 2, 2),
    (5, 127, (1, 2), &[Cut(4)], 0, 3, 3),
    // Round bit 1 changes no refusal: 1 digit; 3 digits in unit 128; the two mixed.
    (5, 0, (15, 1), &[Cut(2), SignChange, Cut(2)], 2, 5, 5),
    (5, 126, (15, 1), &[SignChange, Cut(2)], 1, 7, 7),
    (5, 126, (-16, 1), &[Cut(1), SignChange, Cut(1), Cut(2)], 2, 7, 5),
];

fn expect_line(kind: &Moved, line: &Line, record: &mut Record) {
    let &(width, unit, number_and_round, moves, done, refusal, refusal_at_once) = line;
    let first = word(width, unit, number_and_round);
    let blank = word(2, 0, (0, 0));
    expect(kind, first, moves, (blank, refusal, done), record);
    let at_once = kind.at_once(first, moves, record);
    let agrees = at_once.refusal == refusal_at_once && at_once.word == blank.fields();
    record.check(agrees, || {
        let given = described(first, moves);
        format!(
            "a run at once refused by hand\n  case:    {}\n  library: {:?}\n  by hand: refusal {}",
            given, at_once, refusal_at_once
        )
    });
}

pub fn refused(_: &mut Random, record: &mut Record) {
    for line in OF_BOTH {
        expect_line(&ROUND_BIT, line, record);
        expect_line(&HALF_UNIT, line, record);
    }
    for line in OF_ROUND_BITS {
        expect_line(&ROUND_BIT, line, record);
    }
}
