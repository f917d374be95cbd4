//! Imports of random samples.

use super::binary64_bits::*;
use super::binary64_case::{compare_all, Binary64Case};
use super::limits::*;
use super::random::Random;
use super::random_cases;
use super::tally::Record;

const ANY_BITS: u64 = 100_000;
const IN_REACH: u64 = 60_000;
const NEAR_TIES: u64 = 50_000;
const SUBNORMALS: u64 = 20_000;

/// A width and a unit, mostly right ones: about one in ten has a cause 1 or 2.
fn any_format(random: &mut Random) -> Binary64Case {
    Binary64Case {
        bits: 0,
        width: random_cases::width(random),
        unit: random_cases::unit(random),
    }
}

/// A width and a unit that are right.
pub fn good_format(random: &mut Random) -> Binary64Case {
    Binary64Case {
        bits: 0,
        width: LEAST_WIDTH + random.below(WIDTHS) as u32,
        unit: match random.below(8) {
            0 => LEAST_UNIT,
            1 => MOST_UNIT,
            _ => LEAST_UNIT + random.below(UNITS) as i32,
        },
    }
}

/// Most of these are far too large, or far less than a unit.
pub fn any_bits(random: &mut Random, record: &mut Record) {
    for _ in 0..ANY_BITS {
        let case = any_format(random).with_bits(random.next());
        compare_all(&case, record);
    }
}

/// A sample of a right format, whose count of units has at most two digits more
/// than the width, or is less than a unit.
pub fn any_in_reach(random: &mut Random) -> Binary64Case {
    let format = good_format(random);
    let place = random.below(format.width as u64 + 4) as i32 - 3;
    format.with_bits(with_highest_digit(random, format.unit + place))
}

pub fn in_reach(random: &mut Random, record: &mut Record) {
    for _ in 0..IN_REACH {
        compare_all(&any_in_reach(random), record);
    }
}

/// Half units, k and k + 1/2 for a k of any size, as far as 53 digits tell them:
/// the ties of half-unit, and those of the others. The width is mostly about as
/// much as k needs.
pub fn any_tie(random: &mut Random) -> Binary64Case {
    let format = good_format(random);
    let digits = random.below(MOST_WIDTH as u64 + 1) as u32;
    let number = (random.next() as i128) & ((1 << digits) - 1);
    let halves = with_53_digits(2 * number + random.below(2) as i128);
    let width = match random.below(4) {
        0 => format.width,
        _ => (digits + random.below(3) as u32).clamp(LEAST_WIDTH, MOST_WIDTH),
    };
    Binary64Case {
        bits: of_halves(halves, format.unit) | any_sign(random),
        width,
        ..format
    }
}

pub fn near_ties(random: &mut Random, record: &mut Record) {
    for _ in 0..NEAR_TIES {
        let tie = any_tie(random);
        for bits in and_beside(tie.bits) {
            compare_all(&tie.with_bits(bits), record);
        }
    }
}

/// Fractions of every size below the exponent of the zeros.
pub fn subnormals(random: &mut Random, record: &mut Record) {
    for _ in 0..SUBNORMALS {
        let fraction = any_fraction(random) >> random.below(52);
        let bits = any_sign(random) | fraction;
        for format in [good_format(random), any_format(random)] {
            compare_all(&format.with_bits(bits), record);
        }
    }
}
