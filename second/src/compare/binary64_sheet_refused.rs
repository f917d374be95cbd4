//! Imports refused by hand by document 02, Ask 6, beside those of the sheet: 1 and
//! 2 whatever the bits are, and 15.

use super::binary64_case::{expect_all, refused, Binary64Case};
use super::random::Random;
use super::tally::Record;

/// Both infinities, then not-a-numbers: quiet ones have the highest digit of the
/// fraction 1, signalling ones have it 0 and another 1.
#[rustfmt::skip]
const NOT_FINITE: &[u64] = &[
    0x7FF0_0000_0000_0000, 0xFFF0_0000_0000_0000,
    0x7FF8_0000_0000_0000, 0xFFF8_0000_0000_0000,
    0x7FF8_0000_0000_0001, 0xFFF8_0000_0000_0001,
    0x7FF8_0001_0000_0000, 0x7FFC_0000_0000_0000, 0xFFFC_DEAD_BEEF_0000,
    0x7FFF_FFFF_FFFF_FFFF, 0xFFFF_FFFF_FFFF_FFFF,
    0x7FF0_0000_0000_0001, 0xFFF0_0000_0000_0001,
    0x7FF0_0000_8000_0000, 0xFFF0_0000_8000_0000,
    0x7FF0_0001_0000_0000, 0xFFF0_0001_0000_0000,
    0x7FF4_0000_0000_0000, 0xFFF4_0000_0000_0000,
    0x7FF7_FFFF_FFFF_FFFF, 0xFFF7_FFFF_FFFF_FFFF,
];

/// Zeros, 1, -1, 1.5, the ends of the finite numbers: next to what is not finite
/// stands the greatest of them.
#[rustfmt::skip]
const FINITE: &[u64] = &[
    0x0000_0000_0000_0000, 0x8000_0000_0000_0000,
    0x0000_0000_0000_0001, 0x8000_0000_0000_0001,
    0x3FF0_0000_0000_0000, 0xBFF0_0000_0000_0000, 0x3FF8_0000_0000_0000,
    0x7FEF_FFFF_FFFF_FFFF, 0xFFEF_FFFF_FFFF_FFFF,
];

/// Some of them are good widths and units to a program that drops digits.
#[rustfmt::skip]
const NO_WIDTHS: &[u32] = &[
    0, 1, 64, 65, 66, 127, 128, 256, 258, 256 + 63, 65_536 + 32, 1 << 31, (1 << 31) + 5, u32::MAX,
];
#[rustfmt::skip]
const NO_UNITS: &[i32] = &[
    -128, 128, -129, 129, -256, 256, 255, -65_536, 65_536, 1074, -1074, 2047,
    1 << 30, i32::MIN, i32::MIN + 1, i32::MAX, i32::MAX - 1,
];
const WIDTHS: &[u32] = &[2, 3, 5, 32, 62, 63];
const UNITS: &[i32] = &[-127, -126, -1, 0, 1, 64, 126, 127];

fn no(bits: u64, width: u32, unit: i32, refusal: u32, record: &mut Record) {
    let case = Binary64Case { bits, width, unit };
    let no = refused(refusal);
    expect_all("an import refused by hand", &case, no, no, record);
}

pub fn by_hand(_: &mut Random, record: &mut Record) {
    for &bits in FINITE.iter().chain(NOT_FINITE) {
        for &width in NO_WIDTHS {
            for &unit in UNITS.iter().chain(NO_UNITS) {
                no(bits, width, unit, 1, record);
            }
        }
        for &unit in NO_UNITS {
            for &width in WIDTHS {
                no(bits, width, unit, 2, record);
            }
        }
    }
    for &bits in NOT_FINITE {
        for &width in WIDTHS {
            for &unit in UNITS {
                no(bits, width, unit, 15, record);
            }
        }
    }
}
