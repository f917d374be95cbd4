//! Even cuts worked by hand from document 02, Ask 2. Here both programs are held
//! against these answers, not only against each other; so the numbers stand here
//! as they stand there, and not under the model's names.

use super::call::compare;
use super::case::{Case, Operand};
use super::operations::EVEN_CUT;
use super::random::Random;
use super::tally::Record;

/// Number and round bit, before the cut and after it.
type Line = ((i64, u8), (i64, u8));

#[rustfmt::skip] // one line by hand, one line here
const WIDTH_5_BY_0: &[Line] = &[
    ((0, 1), (0, 1)),
    ((1, 1), (1, 1)),
    ((-1, 1), (-1, 1)),
    ((-16, 1), (-16, 1)),
    ((15, 1), (15, 1)),
];

/// Each with its value in old units; the odd ones are the ties.
#[rustfmt::skip]
const WIDTH_5_BY_1: &[Line] = &[
    ((1, 1), (0, 1)), // 2, which stays 2: the ask's own
    ((0, 1), (0, 0)), // 1: 0 or 2, and 0 is the even count
    ((2, 1), (1, 1)), // 3: 2 or 4, and 4 is the even count
    ((1, 0), (0, 0)), // 1
    ((3, 0), (1, 1)), // 3
    ((3, 1), (1, 1)), // 4
    ((4, 1), (2, 0)), // 5: 4 or 6
    ((-1, 1), (-1, 1)), // 0
    ((-1, 0), (-1, 1)), // -1: -2 or 0
    ((-2, 1), (-1, 1)), // -1
    ((-3, 1), (-2, 1)), // -2
    ((-3, 0), (-2, 0)), // -3: -4 or -2
    ((-4, 1), (-2, 0)), // -3
    ((15, 1), (7, 1)), // 16, past every number of the width
    ((15, 0), (7, 1)), // 15: 14 or 16
    ((14, 1), (7, 1)), // 15
    ((13, 1), (6, 1)), // 14
    ((12, 1), (6, 0)), // 13: 12 or 14
    ((-16, 0), (-8, 0)), // -16
    ((-16, 1), (-8, 0)), // -15: -16 or -14
    ((-15, 1), (-8, 1)), // -14
];

/// Halves of 4 old units: -718 = -180 * 4 + 2 and -714 = -179 * 4 + 2.
#[rustfmt::skip]
const WIDTH_11_BY_2: &[Line] = &[
    ((-718, 0), (-180, 0)),
    ((-719, 1), (-180, 0)), // -718
    ((-718, 1), (-180, 1)), // -717
    ((-720, 1), (-180, 0)), // -719
    ((-714, 0), (-179, 1)),
    ((-715, 1), (-179, 1)), // -714
    ((-716, 1), (-179, 0)), // -715
];

/// Two digits are left. The ties are -12, -4, 4 and 12, and with round bit 1 the
/// lower part is 0 followed by ones.
#[rustfmt::skip]
const WIDTH_5_BY_3: &[Line] = &[
    ((3, 1), (0, 0)), // 4: 0 or 8
    ((4, 0), (0, 0)), // 4
    ((2, 1), (0, 0)), // 3
    ((4, 1), (0, 1)), // 5
    ((7, 1), (0, 1)), // 8
    ((11, 1), (1, 1)), // 12: 8 or 16
    ((12, 0), (1, 1)), // 12
    ((10, 1), (1, 0)), // 11
    ((12, 1), (1, 1)), // 13
    ((15, 1), (1, 1)), // 16
    ((-5, 1), (-1, 1)), // -4: -8 or 0
    ((-4, 0), (-1, 1)), // -4
    ((-6, 1), (-1, 0)), // -5
    ((-1, 1), (-1, 1)), // 0
    ((-13, 1), (-2, 0)), // -12: -16 or -8
    ((-12, 0), (-2, 0)), // -12
    ((-12, 1), (-2, 1)), // -11
    ((-9, 1), (-2, 1)), // -8
    ((-16, 1), (-2, 0)), // -15
];

/// The numbers end at 2^62 = 4_611_686_018_427_387_904, the new ones at 2^61.
#[rustfmt::skip]
const WIDTH_63_BY_1: &[Line] = &[
    ((4_611_686_018_427_387_903, 1), (2_305_843_009_213_693_951, 1)), // 2^62
    ((4_611_686_018_427_387_902, 1), (2_305_843_009_213_693_951, 1)), // 2^62 - 1, a tie
    ((4_611_686_018_427_387_900, 1), (2_305_843_009_213_693_950, 0)), // 2^62 - 3, a tie
    ((-4_611_686_018_427_387_904, 1), (-2_305_843_009_213_693_952, 0)), // -2^62 + 1, a tie
    ((-4_611_686_018_427_387_903, 1), (-2_305_843_009_213_693_952, 1)), // -2^62 + 2
    ((-4_611_686_018_427_387_902, 1), (-2_305_843_009_213_693_951, 1)), // -2^62 + 3, a tie
    ((0, 1), (0, 0)),
    ((1, 1), (0, 1)),
];

/// Two digits are left; the ties are 2^60 = 1_152_921_504_606_846_976 and three
/// times as much, of either sign.
#[rustfmt::skip]
const WIDTH_63_BY_61: &[Line] = &[
    ((1_152_921_504_606_846_975, 1), (0, 0)), // 2^60
    ((1_152_921_504_606_846_974, 1), (0, 0)), // 2^60 - 1
    ((1_152_921_504_606_846_976, 1), (0, 1)), // 2^60 + 1
    ((3_458_764_513_820_540_927, 1), (1, 1)), // 3 * 2^60
    ((3_458_764_513_820_540_926, 1), (1, 0)), // 3 * 2^60 - 1
    ((3_458_764_513_820_540_928, 0), (1, 1)), // 3 * 2^60
    ((-1_152_921_504_606_846_977, 1), (-1, 1)), // -2^60
    ((-1_152_921_504_606_846_978, 1), (-1, 0)), // -2^60 - 1
    ((-3_458_764_513_820_540_929, 1), (-2, 0)), // -3 * 2^60
    ((-3_458_764_513_820_540_928, 1), (-2, 1)), // -3 * 2^60 + 1
    ((4_611_686_018_427_387_903, 1), (1, 1)), // 2^62
    ((-4_611_686_018_427_387_904, 1), (-2, 0)), // -2^62 + 1
];

fn word(width: u32, unit: i32, (number, round): (i64, u8)) -> Operand {
    Operand {
        number,
        round,
        width,
        unit,
    }
}

fn expect(case: Case, refusal: u32, expected: Operand, record: &mut Record) {
    let reply = compare(EVEN_CUT, &case, record);
    let agrees = reply.refusal == refusal && reply.word == expected.fields();
    record.check(agrees, || {
        let given = format!("{:?}, depth {}", case.first, case.depth);
        let by_hand = format!("refusal {}, {:?}", refusal, expected);
        format!(
            "the even cut worked by hand\n  case:    {}\n  library: {:?}\n  by hand: {}",
            given, reply, by_hand
        )
    });
}

/// Each line at unit 0 and at both ends; the answer has width n-d and unit e+d.
fn lines(width: u32, depth: u32, lines: &[Line], record: &mut Record) {
    for &(before, after) in lines {
        for unit in [0, -127, 127 - depth as i32] {
            let case = Case::deep(word(width, unit, before), depth as u64);
            let expected = word(width - depth, unit + depth as i32, after);
            expect(case, 0, expected, record);
        }
    }
}

pub fn done(_: &mut Random, record: &mut Record) {
    lines(5, 0, WIDTH_5_BY_0, record);
    lines(2, 0, &[((1, 1), (1, 1)), ((0, 1), (0, 1))], record);
    lines(5, 1, WIDTH_5_BY_1, record);
    lines(3, 1, &[((2, 1), (1, 1)), ((1, 1), (0, 1))], record);
    lines(11, 2, WIDTH_11_BY_2, record);
    lines(5, 3, WIDTH_5_BY_3, record);
    lines(63, 1, WIDTH_63_BY_1, record);
    lines(63, 61, WIDTH_63_BY_61, record);
}

/// Ask 2 adds no refusal to the cut's, and a refusal returns the blank word.
#[rustfmt::skip]
pub fn refused(_: &mut Random, r: &mut Record) {
    let mut no = |first, depth, refusal| {
        expect(Case::deep(first, depth), refusal, word(2, 0, (0, 0)), r)
    };
    no(word(1, 0, (0, 1)), 0, 1);
    no(word(64, 128, (1, 1)), 1, 1);
    no(word(5, -128, (1, 1)), 1, 2);
    no(word(5, 128, (1, 2)), 1, 2);
    no(word(5, 0, (16, 1)), 1, 3);
    no(word(5, 0, (-17, 1)), 4, 3);
    no(word(5, 0, (1, 2)), 1, 3);
    no(word(5, 0, (1, 1)), 4, 5);
    no(word(3, 0, (1, 1)), 2, 5);
    no(word(2, 127, (1, 1)), 1, 5);
    no(word(63, 0, (1, 1)), 62, 5);
    no(word(5, 0, (1, 1)), (1 << 32) + 1, 5);
    no(word(5, 0, (1, 1)), u64::MAX, 5);
    no(word(5, 127, (1, 1)), 1, 7);
    no(word(63, 67, (1, 1)), 61, 7);
}
