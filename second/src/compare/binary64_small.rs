//! Imports of every count of quarter units, in small widths. What they must give
//! is worked out here in quarters, which is enough to tell every half and every
//! side of it; the second program's import is not asked.

use super::binary64_bits::{and_beside, of_whole};
use super::binary64_case::{compare_all, expect_all, refused, Binary64Case};
use super::case::Reply;
use super::limits::*;
use super::random::Random;
use super::tally::Record;

const WIDEST: u32 = 8;

/// Some of the units, both ends among them.
const UNITS: [i32; 9] = [LEAST_UNIT, -126, -64, -1, 0, 1, 63, 126, MOST_UNIT];

pub fn every_quarter(_: &mut Random, record: &mut Record) {
    for width in LEAST_WIDTH..=WIDEST {
        // Past both ends by some units.
        let most = 4 * ((1 << (width - 1)) + 3);
        for quarters in -most..=most {
            for unit in UNITS {
                let bits = of_whole(quarters, unit - 2).expect("a few quarters");
                let case = Binary64Case { bits, width, unit };
                let whole = in_width(&case, whole(quarters));
                let half_odd = in_width(&case, half_odd(quarters));
                expect_all("a count of quarters", &case, whole, half_odd, record);
                for beside in and_beside(bits) {
                    compare_all(&case.with_bits(beside), record);
                }
            }
        }
    }
}

/// Remainders of 0 to 3 quarters above the floor.
fn whole(quarters: i128) -> i128 {
    let floor = quarters.div_euclid(4);
    match quarters.rem_euclid(4) {
        0 | 1 => floor,
        3 => floor + 1,
        _ => even_of(floor, floor + 1),
    }
}

/// Between two whole counts the half-odd one between them is the nearest.
fn half_odd(quarters: i128) -> i128 {
    let floor = quarters.div_euclid(4);
    match quarters.rem_euclid(4) {
        0 => even_of(floor - 1, floor),
        _ => floor,
    }
}

fn even_of(one: i128, other: i128) -> i128 {
    if one % 2 == 0 {
        one
    } else {
        other
    }
}

fn in_width(case: &Binary64Case, number: i128) -> Reply {
    let half = 1i128 << (case.width - 1);
    if (-half..half).contains(&number) {
        case.done(number)
    } else {
        refused(8)
    }
}
