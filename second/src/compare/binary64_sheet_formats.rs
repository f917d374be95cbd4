//! Imports worked by hand from document 02, Ask 6, beside those of the sheet: other
//! units, and the ends of some widths.

use super::binary64_case::Outcome;
use super::binary64_sheet::{lines, Line};
use super::random::Random;
use super::tally::Record;

/// Width 5, unit -127: 2^-128 is half a unit, and -128 + 1023 = 895 = 37F.
#[rustfmt::skip]
const LEAST_UNIT: &[Line] = &[
    (0x37F0_0000_0000_0000, Ok(0), Ok(0)), // 0.5 units
    (0xB7F0_0000_0000_0000, Ok(0), Ok(-1)), // -0.5
    (0x37F0_0000_0000_0001, Ok(1), Ok(0)), // 0.5000..1
    (0xB7F0_0000_0000_0001, Ok(-1), Ok(-1)),
    (0x3800_0000_0000_0000, Ok(1), Ok(0)), // 1
    (0xB800_0000_0000_0000, Ok(-1), Ok(-2)), // -1
    (0x3808_0000_0000_0000, Ok(2), Ok(1)), // 1.5
    (0xB808_0000_0000_0000, Ok(-2), Ok(-2)), // -1.5
    (0x3814_0000_0000_0000, Ok(2), Ok(2)), // 2.5
    (0xB814_0000_0000_0000, Ok(-2), Ok(-3)), // -2.5
    (0x381C_0000_0000_0000, Ok(4), Ok(3)), // 3.5
    (0x3814_0000_0000_0001, Ok(3), Ok(2)), // 2.5000..1
    (0x3FF0_0000_0000_0000, Err(8), Err(8)), // 2^127 units
];

/// Width 5, unit 127: 2^126 is half a unit, and 126 + 1023 = 1149 = 47D.
#[rustfmt::skip]
const MOST_UNIT: &[Line] = &[
    (0x47CF_FFFF_FFFF_FFFF, Ok(0), Ok(0)), // 0.4999.. units
    (0x47D0_0000_0000_0000, Ok(0), Ok(0)), // 0.5
    (0xC7D0_0000_0000_0000, Ok(0), Ok(-1)), // -0.5
    (0x47D0_0000_0000_0001, Ok(1), Ok(0)), // 0.5000..1
    (0x47E0_0000_0000_0000, Ok(1), Ok(0)), // 1
    (0xC7E0_0000_0000_0000, Ok(-1), Ok(-2)), // -1
    (0x47E8_0000_0000_0000, Ok(2), Ok(1)), // 1.5
    (0xC7E8_0000_0000_0000, Ok(-2), Ok(-2)), // -1.5
    (0x47F4_0000_0000_0000, Ok(2), Ok(2)), // 2.5
    (0xC7F4_0000_0000_0000, Ok(-2), Ok(-3)), // -2.5
    (0x47FC_0000_0000_0000, Ok(4), Ok(3)), // 3.5
    (0x3FF0_0000_0000_0000, Ok(0), Ok(0)), // 1.0 is 2^-127 units
    (0xBFF0_0000_0000_0000, Ok(0), Ok(-1)),
];

/// Width 2, unit 0: numbers -2 to 1. A tie is settled before they are asked for.
#[rustfmt::skip]
const WIDTH_2: &[Line] = &[
    (0x3FF0_0000_0000_0000, Ok(1), Ok(0)), // 1
    (0x3FF7_FFFF_FFFF_FFFF, Ok(1), Ok(1)), // 1.4999..
    (0x3FF8_0000_0000_0000, Err(8), Ok(1)), // 1.5: 2, though 1 is as near
    (0x3FFF_FFFF_FFFF_FFFF, Err(8), Ok(1)), // 1.9999..
    (0x4000_0000_0000_0000, Err(8), Err(8)), // 2: half-unit 2, though 1 is as near
    (0x4008_0000_0000_0000, Err(8), Err(8)), // 3
    (0x0000_0000_0000_0000, Ok(0), Ok(0)),
    (0x8000_0000_0000_0000, Ok(0), Ok(0)),
    (0xBFF0_0000_0000_0000, Ok(-1), Ok(-2)), // -1
    (0xBFFF_FFFF_FFFF_FFFF, Ok(-2), Ok(-2)), // -1.9999..
    (0xC000_0000_0000_0000, Ok(-2), Ok(-2)), // -2: half-unit -2, not -3
    (0xC000_0000_0000_0001, Ok(-2), Err(8)), // -2.0000..1, nearer to -2.5 than to -1.5
    (0xC004_0000_0000_0000, Ok(-2), Err(8)), // -2.5: -2, not -3; half-unit -3 exactly
    (0xC004_0000_0000_0001, Err(8), Err(8)), // -2.5000..1
    (0xC008_0000_0000_0000, Err(8), Err(8)), // -3
];

/// 2^52, 2^53 and 2^62.
const TO_52: i64 = 4_503_599_627_370_496;
const TO_53: i64 = 9_007_199_254_740_992;
const TO_62: i64 = 4_611_686_018_427_387_904;

/// Bits, width, unit, and what both must give.
type Wide = (u64, u32, i32, Outcome, Outcome);

#[rustfmt::skip]
const OTHERS: &[Wide] = &[
    // 10 is 1.01 * 2^3: 80, 5, 2.5, 1.25, 0.625 and 0.3125 units.
    (0x4024_0000_0000_0000, 8, -3, Ok(80), Ok(80)), // half-unit 79 or 80
    (0x4024_0000_0000_0000, 7, -3, Err(8), Err(8)), // over 63
    (0x4024_0000_0000_0000, 5, 1, Ok(5), Ok(4)), // half-unit 4 or 5
    (0x4024_0000_0000_0000, 5, 2, Ok(2), Ok(2)),
    (0x4024_0000_0000_0000, 5, 3, Ok(1), Ok(1)),
    (0x4024_0000_0000_0000, 5, 4, Ok(1), Ok(0)),
    (0x4024_0000_0000_0000, 5, 5, Ok(0), Ok(0)),
    (0xC024_0000_0000_0000, 5, 2, Ok(-2), Ok(-3)),
    (0xC024_0000_0000_0000, 5, 4, Ok(-1), Ok(-1)),
    // P6: 718 is 1011001110 in binary, and -718 / 4 is -179.5.
    (0xC086_7000_0000_0000, 11, 0, Ok(-718), Ok(-718)),
    (0xC086_7000_0000_0000, 9, 2, Ok(-180), Ok(-180)),
    // Where the digits of a binary64 number end: 2^52 - 1/2, 2^53 - 1, 2^53.
    (0x432F_FFFF_FFFF_FFFF, 53, 0, Err(8), Ok(TO_52 - 1)),
    (0x432F_FFFF_FFFF_FFFF, 54, 0, Ok(TO_52), Ok(TO_52 - 1)),
    (0xC32F_FFFF_FFFF_FFFF, 53, 0, Ok(-TO_52), Ok(-TO_52)),
    (0x433F_FFFF_FFFF_FFFF, 54, 0, Ok(TO_53 - 1), Ok(TO_53 - 2)),
    (0x433F_FFFF_FFFF_FFFF, 53, 0, Err(8), Err(8)),
    (0x4340_0000_0000_0000, 54, 0, Err(8), Err(8)),
    (0xC340_0000_0000_0000, 54, 0, Ok(-TO_53), Ok(-TO_53)),
    // The ends of the greatest width: 2^62 - 2^9, 2^62, 2^62 + 2^10; 62 + 1023 = 43D.
    (0x43CF_FFFF_FFFF_FFFF, 63, 0, Ok(TO_62 - 512), Ok(TO_62 - 512)),
    (0x43D0_0000_0000_0000, 63, 0, Err(8), Err(8)),
    (0xC3D0_0000_0000_0000, 63, 0, Ok(-TO_62), Ok(-TO_62)),
    (0xC3D0_0000_0000_0001, 63, 0, Err(8), Err(8)),
    // The same at both ends of the units: 62 - 127 + 1023 = 3BE, 62 + 127 + 1023 = 4BC.
    (0x3BDF_FFFF_FFFF_FFFF, 63, -127, Ok(TO_62 - 512), Ok(TO_62 - 512)),
    (0xBBE0_0000_0000_0000, 63, -127, Ok(-TO_62), Ok(-TO_62)),
    (0x3BE0_0000_0000_0000, 63, -127, Err(8), Err(8)),
    (0x4BBF_FFFF_FFFF_FFFF, 63, 127, Ok(TO_62 - 512), Ok(TO_62 - 512)),
    (0xCBC0_0000_0000_0000, 63, 127, Ok(-TO_62), Ok(-TO_62)),
    (0x4BC0_0000_0000_0000, 63, 127, Err(8), Err(8)),
];

pub fn done(_: &mut Random, record: &mut Record) {
    lines(5, -127, LEAST_UNIT, record);
    lines(5, 127, MOST_UNIT, record);
    lines(2, 0, WIDTH_2, record);
    for &(bits, width, unit, whole, half_odd) in OTHERS {
        lines(width, unit, &[(bits, whole, half_odd)], record);
    }
}
