//! Imports with several causes at once: every set of them, each with the one that
//! document 02, Ask 6 names first.

use super::binary64_bits::*;
use super::binary64_case::{expect_all, refused, Binary64Case};
use super::binary64_laws::hold;
use super::binary64_random::good_format;
use super::limits::*;
use super::random::Random;
use super::tally::Record;

/// How often each set is made anew.
const DRAWS: u64 = 1_000;

/// What can be wrong, one bit for each, in the order of the ask.
const WIDTH: u32 = 1;
const UNIT: u32 = 2;
const FINITE: u32 = 4;
const TOO_LARGE: u32 = 8;
const ALL_CAUSES: u32 = 16;

/// In this order, whatever else is wrong.
fn named_first(causes: u32) -> u32 {
    let order = [(WIDTH, 1), (UNIT, 2), (FINITE, 15), (TOO_LARGE, 8)];
    let first = order.iter().find(|(cause, _)| causes & cause != 0);
    first.map_or(0, |(_, refusal)| *refusal)
}

pub fn several_causes(random: &mut Random, record: &mut Record) {
    for causes in 0..ALL_CAUSES {
        for _ in 0..DRAWS {
            with_causes(random, causes, record);
        }
    }
}

fn with_causes(random: &mut Random, causes: u32, record: &mut Record) {
    let good = good_format(random);
    let mut case = good.with_bits(any_sign(random) | size(random, causes, good));
    if causes & WIDTH != 0 {
        case.width = bad_width(random);
    }
    if causes & UNIT != 0 {
        case.unit = bad_unit(random);
    }
    match named_first(causes) {
        0 => hold(&case, record),
        refusal => {
            let no = refused(refusal);
            expect_all("several causes at once", &case, no, no, record);
        }
    }
}

/// An infinity is past every width as well; a not-a-number has no size. Any other
/// that is too large is so at the format as it was before it was spoilt, by as
/// little as twice, or even at the greatest unit.
fn size(random: &mut Random, causes: u32, good: Binary64Case) -> u64 {
    match (causes & FINITE != 0, causes & TOO_LARGE != 0) {
        (true, true) => INFINITY,
        (true, false) => INFINITY | not_a_number(random),
        (false, true) => {
            // 2^n units, and so past both ends of a width n.
            let past = (good.unit + good.width as i32 + 1023) as u64;
            let stored = match random.below(3) {
                0 => past,
                1 => past + random.below(2047 - past),
                _ => 2046,
            };
            stored << 52 | any_fraction(random)
        }
        (false, false) => {
            // Less than 2^(n-2) units, and so within both ends of a width n.
            let within = (good.unit + good.width as i32 - 3 + 1023) as u64;
            let any = random.below(within + 1);
            random.one_of(&[within, any]) << 52 | any_fraction(random)
        }
    }
}

/// A fraction that is not 0, quiet and signalling.
fn not_a_number(random: &mut Random) -> u64 {
    match random.below(4) {
        0 => 1 << random.below(52),
        1 => QUIET,
        _ => any_fraction(random).max(1),
    }
}

fn bad_width(random: &mut Random) -> u32 {
    match random.below(4) {
        0 => random.one_of(&[0, LEAST_WIDTH - 1]),
        1 => random.one_of(&[MOST_WIDTH + 1, 256 + LEAST_WIDTH, 1 << 31, u32::MAX]),
        _ => (random.next() as u32 >> random.below(26)).max(MOST_WIDTH + 1),
    }
}

fn bad_unit(random: &mut Random) -> i32 {
    let over = match random.below(4) {
        0 => MOST_UNIT + 1,
        1 => random.one_of(&[256, 1074, 2047, 65_536, i32::MAX]),
        _ => ((random.next() as u32 >> (1 + random.below(24))) as i32).max(MOST_UNIT + 1),
    };
    random.one_of(&[over, -over])
}
