//! Imports at the ends of every width, at every unit: the last number that is done
//! and the first that is refused, and their neighbours. Which they are is worked
//! out here, in counts of units, from the words of document 02, Ask 6; the second
//! program's import is not asked.

use super::binary64_bits::{of_halves, SIGN};
use super::binary64_case::{compare, expect, refused, Binary64Case, Import, HALF_UNIT, WHOLE};
use super::limits::*;
use super::random::Random;
use super::tally::Record;

/// The last that is done going away from 0, without its sign, and its number. The
/// next number away from 0 is refused.
type End = (u64, i128);

/// 2^(n-1), which is even, since n is 2 or more.
fn half(width: u32) -> i128 {
    1 << (width - 1)
}

/// The digits of a binary64 number are 53, so next below 2^(n-1) stands one that
/// is 2^(n-54) less: from width 54 on a whole number.
fn next_below_half(width: u32) -> i128 {
    half(width) - (1 << (width - 54))
}

/// The greatest number of the width is 2^(n-1) - 1, and it is odd. So 2^(n-1) - 1/2
/// is a tie that goes to 2^(n-1) and is refused, and what is below is done. It has n
/// digits and so is a binary64 number up to width 53; after that 2^(n-1) is refused.
fn whole_above(width: u32, unit: i32) -> End {
    if width <= 53 {
        let tie = of_halves(2 * half(width) - 1, unit);
        (tie - 1, half(width) - 1)
    } else {
        let past = of_halves(2 * half(width), unit);
        (past - 1, next_below_half(width))
    }
}

/// The least number is -2^(n-1), and it is even. So -2^(n-1) - 1/2 is a tie that
/// goes to it and is done. It has n + 1 digits and so is a binary64 number up to
/// width 52; after that -2^(n-1) is the last.
fn whole_below(width: u32, unit: i32) -> End {
    let halves = if width <= 52 {
        2 * half(width) + 1
    } else {
        2 * half(width)
    };
    (of_halves(halves, unit), -half(width))
}

/// The count 2^(n-1) is as far from w = 2^(n-1) - 1 as from w = 2^(n-1); the latter
/// is even, and it is refused. Of a count that is whole and not past it w is the
/// even one of the count and the number before it.
fn half_odd_above(width: u32, unit: i32) -> End {
    let past = of_halves(2 * half(width), unit);
    let number = match width {
        2..=53 => half(width) - 1,
        // 2^53 - 1 is odd.
        54 => half(width) - 2,
        _ => next_below_half(width),
    };
    (past - 1, number)
}

/// The count -2^(n-1) is as far from w = -2^(n-1) - 1 as from w = -2^(n-1); the
/// latter is even, and it is done.
fn half_odd_below(width: u32, unit: i32) -> End {
    (of_halves(2 * half(width), unit), -half(width))
}

fn about(import: &Import, case: Binary64Case, end: End, record: &mut Record) {
    let sign = case.bits;
    let (last, number) = end;
    let done = case.with_bits(sign | last);
    let what = "the last that is done";
    expect(what, import, &done, done.done(number), record);
    for next in 1..=2 {
        let past = case.with_bits(sign | (last + next));
        let what = "the first that are refused";
        expect(what, import, &past, refused(8), record);
    }
    // The one before is done, and its number is not further out.
    let before = case.with_bits(sign | (last - 1));
    let library = compare(import, &before, record);
    let kept = library.refusal == 0 && library.word.number.abs() <= number.abs();
    record.check(kept, || {
        format!(
            "the one before the last that is done, {}\n  case:    {}\n  library: {:?}",
            import.name,
            before.describe(),
            library
        )
    });
}

pub fn of_widths(_: &mut Random, record: &mut Record) {
    for width in LEAST_WIDTH..=MOST_WIDTH {
        for unit in LEAST_UNIT..=MOST_UNIT {
            let above = Binary64Case {
                bits: 0,
                width,
                unit,
            };
            let below = above.with_bits(SIGN);
            for import in &WHOLE {
                about(import, above, whole_above(width, unit), record);
                about(import, below, whole_below(width, unit), record);
            }
            about(&HALF_UNIT, above, half_odd_above(width, unit), record);
            about(&HALF_UNIT, below, half_odd_below(width, unit), record);
        }
    }
}
