//! Imports worked by hand from document 02, Ask 6. Here both programs are held
//! against these answers, not only against each other; so the numbers stand here
//! as they stand there, and not under the model's names.
//!
//! A binary64 number is a sign, 11 digits of exponent and 52 of fraction: 2.5 is
//! 1.01 * 2^1 in binary, its exponent 1 + 1023 = 1024, so 0 10000000000 0100.. =
//! 40040000.. . A half-unit w is worth w + 1/2: 1.0 is as far from 0 (0.5) as from
//! 1 (1.5), and of these 0 has the lowest digit clear.

use super::binary64_case::{expect_all, Binary64Case, Outcome};
use super::random::Random;
use super::tally::Record;

/// Bits, what plain and round-bit must give, and what half-unit must give.
pub type Line = (u64, Outcome, Outcome);

/// Width 5, unit 0.
#[rustfmt::skip] // one line by hand, one line here
const WIDTH_5: &[Line] = &[
    (0x0000_0000_0000_0000, Ok(0), Ok(0)), // 0; half-unit -1 or 0
    (0x8000_0000_0000_0000, Ok(0), Ok(0)), // -0, which is worth the same
    (0x3FE0_0000_0000_0000, Ok(0), Ok(0)), // 0.5, between 0 and 1; half-unit 0 exactly
    (0x3FF8_0000_0000_0000, Ok(2), Ok(1)), // 1.5, between 1 and 2
    (0x4004_0000_0000_0000, Ok(2), Ok(2)), // 2.5, between 2 and 3
    (0x400C_0000_0000_0000, Ok(4), Ok(3)), // 3.5, between 3 and 4
    (0xBFE0_0000_0000_0000, Ok(0), Ok(-1)), // -0.5, between -1 and 0
    (0xBFF8_0000_0000_0000, Ok(-2), Ok(-2)), // -1.5, between -2 and -1
    (0xC004_0000_0000_0000, Ok(-2), Ok(-3)), // -2.5, between -3 and -2
    (0xC00C_0000_0000_0000, Ok(-4), Ok(-4)), // -3.5, between -4 and -3
    // Just below and just above these halves.
    (0x3FDF_FFFF_FFFF_FFFF, Ok(0), Ok(0)), // 0.4999..
    (0x3FE0_0000_0000_0001, Ok(1), Ok(0)), // 0.5000..1
    (0x3FF7_FFFF_FFFF_FFFF, Ok(1), Ok(1)), // 1.4999..
    (0x3FF8_0000_0000_0001, Ok(2), Ok(1)), // 1.5000..1
    (0x4003_FFFF_FFFF_FFFF, Ok(2), Ok(2)), // 2.4999..
    (0x4004_0000_0000_0001, Ok(3), Ok(2)), // 2.5000..1
    (0xBFDF_FFFF_FFFF_FFFF, Ok(0), Ok(-1)), // -0.4999..
    (0xBFE0_0000_0000_0001, Ok(-1), Ok(-1)), // -0.5000..1
    (0xC003_FFFF_FFFF_FFFF, Ok(-2), Ok(-3)), // -2.4999..
    (0xC004_0000_0000_0001, Ok(-3), Ok(-3)), // -2.5000..1
    // Whole counts, each a tie of half-unit.
    (0x3FF0_0000_0000_0000, Ok(1), Ok(0)), // 1: 0 (0.5) or 1 (1.5)
    (0x4000_0000_0000_0000, Ok(2), Ok(2)), // 2: 1 (1.5) or 2 (2.5)
    (0x4008_0000_0000_0000, Ok(3), Ok(2)), // 3: 2 (2.5) or 3 (3.5)
    (0x4010_0000_0000_0000, Ok(4), Ok(4)), // 4: 3 (3.5) or 4 (4.5)
    (0xBFF0_0000_0000_0000, Ok(-1), Ok(-2)), // -1: -2 (-1.5) or -1 (-0.5)
    (0xC000_0000_0000_0000, Ok(-2), Ok(-2)), // -2: -3 (-2.5) or -2 (-1.5)
    (0xC008_0000_0000_0000, Ok(-3), Ok(-4)), // -3: -4 (-3.5) or -3 (-2.5)
    (0xC010_0000_0000_0000, Ok(-4), Ok(-4)), // -4: -5 (-4.5) or -4 (-3.5)
    // Just below and just above these.
    (0x3FEF_FFFF_FFFF_FFFF, Ok(1), Ok(0)), // 0.9999..
    (0x3FF0_0000_0000_0001, Ok(1), Ok(1)), // 1.0000..1
    (0x4007_FFFF_FFFF_FFFF, Ok(3), Ok(2)), // 2.9999..
    (0x4008_0000_0000_0001, Ok(3), Ok(3)), // 3.0000..1
    (0xBFEF_FFFF_FFFF_FFFF, Ok(-1), Ok(-1)), // -0.9999..
    (0xBFF0_0000_0000_0001, Ok(-1), Ok(-2)), // -1.0000..1
    // No ties: 0.3 is 1.2 * 2^-2, and its fraction 0.2 is 3333.. in sixteens.
    (0x3FD3_3333_3333_3333, Ok(0), Ok(0)), // 0.3, 0.2 from 0.5
    (0xBFD3_3333_3333_3333, Ok(0), Ok(-1)), // -0.3, 0.2 from -0.5
    (0x3FD0_0000_0000_0000, Ok(0), Ok(0)), // 0.25
    (0x3FE8_0000_0000_0000, Ok(1), Ok(0)), // 0.75
    (0x3FF4_0000_0000_0000, Ok(1), Ok(1)), // 1.25
    (0x3FFC_0000_0000_0000, Ok(2), Ok(1)), // 1.75
    (0xBFD0_0000_0000_0000, Ok(0), Ok(-1)), // -0.25
    (0xBFE8_0000_0000_0000, Ok(-1), Ok(-1)), // -0.75
    (0xBFF4_0000_0000_0000, Ok(-1), Ok(-2)), // -1.25
    (0xBFFC_0000_0000_0000, Ok(-2), Ok(-2)), // -1.75
];

/// Numbers that are less than half of every unit, and both zeros: at every format.
#[rustfmt::skip]
const TINY: &[Line] = &[
    (0x0000_0000_0000_0000, Ok(0), Ok(0)), // 0
    (0x8000_0000_0000_0000, Ok(0), Ok(0)), // -0
    (0x0000_0000_0000_0001, Ok(0), Ok(0)), // 2^-1074, the least subnormal
    (0x8000_0000_0000_0001, Ok(0), Ok(-1)), // nearer to -0.5 than to 0.5
    (0x0008_0000_0000_0000, Ok(0), Ok(0)), // 2^-1023
    (0x8008_0000_0000_0000, Ok(0), Ok(-1)),
    (0x000F_FFFF_FFFF_FFFF, Ok(0), Ok(0)), // 2^-1022 - 2^-1074, the greatest subnormal
    (0x800F_FFFF_FFFF_FFFF, Ok(0), Ok(-1)),
    (0x0010_0000_0000_0000, Ok(0), Ok(0)), // 2^-1022, the least normal
    (0x8010_0000_0000_0000, Ok(0), Ok(-1)),
    (0x37E0_0000_0000_0000, Ok(0), Ok(0)), // 2^-129, a quarter of the least unit
    (0xB7E0_0000_0000_0000, Ok(0), Ok(-1)),
    (0x37EF_FFFF_FFFF_FFFF, Ok(0), Ok(0)), // just below 2^-128
    (0xB7EF_FFFF_FFFF_FFFF, Ok(0), Ok(-1)),
];

/// Numbers that pass the greatest width at the greatest unit, so every other.
#[rustfmt::skip]
const VAST: &[Line] = &[
    (0x7FEF_FFFF_FFFF_FFFF, Err(8), Err(8)), // 2^1024 - 2^971, the greatest finite
    (0xFFEF_FFFF_FFFF_FFFF, Err(8), Err(8)),
    (0x7FE0_0000_0000_0000, Err(8), Err(8)), // 2^1023
    (0xFFE0_0000_0000_0000, Err(8), Err(8)),
    (0x4BC0_0000_0000_0000, Err(8), Err(8)), // 2^189 = 2^62 * 2^127; 189 + 1023 = 4BC
    (0xCBC0_0000_0000_0001, Err(8), Err(8)), // -2^189 itself is done there
];

pub fn lines(width: u32, unit: i32, lines: &[Line], record: &mut Record) {
    for &(bits, whole, half_odd) in lines {
        let case = Binary64Case { bits, width, unit };
        let (whole, half_odd) = (case.reply(whole), case.reply(half_odd));
        expect_all("an import worked by hand", &case, whole, half_odd, record);
    }
}

pub fn done(_: &mut Random, record: &mut Record) {
    lines(5, 0, WIDTH_5, record);
    lines(63, 0, WIDTH_5, record);
    for width in [2, 3, 5, 32, 53, 54, 62, 63] {
        for unit in [-127, -126, -1, 0, 1, 64, 126, 127] {
            lines(width, unit, TINY, record);
            lines(width, unit, VAST, record);
        }
    }
}
