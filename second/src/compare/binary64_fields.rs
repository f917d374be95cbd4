//! Imports of numbers with every exponent, the subnormals' and that of what is not
//! finite among them, and of numbers just around what a unit can count.

use super::binary64_bits::{FRACTION, QUIET, SIGN};
use super::binary64_case::{compare_all, Binary64Case};
use super::limits::*;
use super::random::Random;
use super::tally::Record;

/// Formats in which every exponent is asked for.
const FORMATS: [(u32, i32); 6] = [
    (LEAST_WIDTH, LEAST_UNIT),
    (MOST_WIDTH, LEAST_UNIT),
    (24, 0),
    (MOST_WIDTH, 0),
    (LEAST_WIDTH, MOST_UNIT),
    (MOST_WIDTH, MOST_UNIT),
];

/// As stored, 11 digits.
const EXPONENTS: u64 = 2048;

/// Of the fraction 0, 1, all ones, half, half and a little, and one that is random.
fn fractions(random: &mut Random) -> [u64; 6] {
    [0, 1, FRACTION, QUIET, QUIET | 1, random.next() & FRACTION]
}

pub fn every_exponent(random: &mut Random, record: &mut Record) {
    for stored in 0..EXPONENTS {
        for fraction in fractions(random) {
            let bits = stored << 52 | fraction;
            let near = near_format(random, stored as i32 - 1023);
            for (width, unit) in FORMATS.into_iter().chain([near]) {
                for bits in [bits, SIGN | bits] {
                    compare_all(&Binary64Case { bits, width, unit }, record);
                }
            }
        }
    }
}

/// A format in which a number with its highest digit there is no longer than two
/// digits over the width, or else as near to that as the units allow.
fn near_format(random: &mut Random, highest: i32) -> (u32, i32) {
    let width = LEAST_WIDTH + random.below(WIDTHS) as u32;
    let digits = random.below(width as u64 + 3) as i32;
    let unit = (highest + 1 - digits).clamp(LEAST_UNIT, MOST_UNIT);
    (width, unit)
}

/// Every unit, with the highest digit in every place from well below half a unit
/// up to past the greatest width.
pub fn every_place(random: &mut Random, record: &mut Record) {
    for unit in LEAST_UNIT..=MOST_UNIT {
        for place in -4..=MOST_WIDTH as i32 + 1 {
            let stored = (unit + place + 1023) as u64;
            let fractions = fractions(random);
            let fraction = random.one_of(&fractions);
            let width = (place + 1 + random.below(3) as i32).max(LEAST_WIDTH as i32) as u32;
            for width in [width, LEAST_WIDTH + random.below(WIDTHS) as u32] {
                for sign in [0, SIGN] {
                    let bits = sign | stored << 52 | fraction;
                    compare_all(&Binary64Case { bits, width, unit }, record);
                }
            }
        }
    }
}
