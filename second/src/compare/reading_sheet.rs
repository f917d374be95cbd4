//! Readings worked by hand from document 02, Ask 4. Here both programs are held
//! against these answers, not only against each other; so the numbers stand here
//! as they stand there, and not under the model's names.
//!
//! A binary32 number is a sign, 8 digits of exponent and 23 of fraction: 6 is
//! 1.1 * 2^2 in binary, its exponent 2 + 127 = 129, so 0 10000001 1000.. = 40C00000.

use super::random::Random;
use super::reading_case::{expect, ReadingCase};
use super::reading_records::{Entry, Records};
use super::tally::Record;
use crate::model::reading::{Reading, ReadingAnswer};

/// Kind, width and a record, and the bits of its value.
type Value = (u32, u32, Entry, u32);

/// "The same digits mean three amounts": 5, 6 and 5.5.
#[rustfmt::skip] // one line by hand, one line here
const VALUES: &[Value] = &[
    (0, 5, (5, 0), 0x4120_0000), // 10: 1.01 * 2^3, 0 10000010 0100..
    (1, 5, (5, 1), 0x4140_0000), // 12: 1.1 * 2^3, 0 10000010 1000..
    (2, 5, (5, 0), 0x4130_0000), // 11: 1.011 * 2^3, 0 10000010 0110..
    (1, 5, (5, 0), 0x4120_0000), // 10
    // Zero of each kind that has one, and what is nearest to it.
    (0, 2, (0, 0), 0x0000_0000),
    (1, 2, (0, 0), 0x0000_0000),
    (1, 2, (-1, 1), 0x0000_0000),
    (2, 2, (0, 0), 0x3F80_0000), // 1: 1.0 * 2^0, 0 01111111 0000..
    (2, 2, (-1, 0), 0xBF80_0000), // -1
    (0, 2, (1, 0), 0x4000_0000), // 2: 1.0 * 2^1, 0 10000000 0000..
    (0, 2, (-1, 0), 0xC000_0000), // -2
    (1, 2, (-2, 1), 0xC000_0000), // -2
    (1, 2, (0, 1), 0x4000_0000), // 2
    (2, 2, (1, 0), 0x4040_0000), // 3: 1.1 * 2^1, 0 10000000 1000..
    (2, 2, (-2, 0), 0xC040_0000), // -3
    (0, 2, (-2, 0), 0xC080_0000), // -4: 1.0 * 2^2, 1 10000001 0000..
    (1, 2, (1, 1), 0x4080_0000), // 4, past every number of the width doubled
    // The number of P6. 1436 is 10110011100 in binary, so 1.01100111 * 2^10.
    (0, 11, (-718, 0), 0xC4B3_8000), // -1436: 1 10001001 01100111000..
    (2, 11, (-718, 0), 0xC4B3_6000), // -1435: 1 10001001 01100110110..
    (1, 11, (-718, 1), 0xC4B3_4000), // -1434: 1 10001001 01100110100..
    // 2469134 = 2^21 + 371982, and 371982 * 4 = 1487928 = 16B438; 21 + 127 = 148.
    (0, 22, (1_234_567, 0), 0x4A16_B438),
    // Two digits of the fraction are left over at 2^21, one at 2^22, none at 2^23.
    (0, 23, (4_194_303, 0), 0x4AFF_FFFC), // 2^23 - 2
    (2, 23, (4_194_303, 0), 0x4AFF_FFFE), // 2^23 - 1
    (1, 23, (4_194_303, 1), 0x4B00_0000), // 2^23: 0 10010110 0000..
    (2, 24, (4_194_304, 0), 0x4B00_0001), // 2^23 + 1
    (0, 24, (-4_194_304, 0), 0xCB00_0000), // -2^23
    (2, 24, (-4_194_305, 0), 0xCB00_0001), // -2^23 - 1
    // The ends of the greatest width.
    (0, 24, (8_388_607, 0), 0x4B7F_FFFE), // 2^24 - 2
    (1, 24, (8_388_607, 0), 0x4B7F_FFFE), // 2^24 - 2
    (2, 24, (8_388_607, 0), 0x4B7F_FFFF), // 2^24 - 1: 0 10010110 1111..
    (1, 24, (8_388_607, 1), 0x4B80_0000), // 2^24: 0 10010111 0000..
    (0, 24, (-8_388_608, 0), 0xCB80_0000), // -2^24
    (1, 24, (-8_388_608, 0), 0xCB80_0000), // -2^24
    (1, 24, (-8_388_608, 1), 0xCB7F_FFFE), // -2^24 + 2
    (2, 24, (-8_388_608, 0), 0xCB7F_FFFF), // -2^24 + 1
    (0, 24, (0, 0), 0x0000_0000),
    (1, 24, (-1, 1), 0x0000_0000),
    (2, 24, (0, 0), 0x3F80_0000), // 1
];

/// First, length, and the bits of the lowest, the highest and the first.
type Line = (usize, usize, [u32; 3]);

/// Worth 6, -14, 24, -32, 30 and 0: 40C00000, C1600000 (1.11 * 2^3), 41C00000
/// (1.1 * 2^4), C2000000 (1.0 * 2^5), 41F00000 (1.111 * 2^4) and 0.
const PLAIN_5: &[Entry] = &[(3, 0), (-7, 0), (12, 0), (-16, 0), (15, 0), (0, 0)];
#[rustfmt::skip]
const OF_PLAIN_5: &[Line] = &[
    (0, 6, [0xC200_0000, 0x41F0_0000, 0x40C0_0000]),
    (0, 1, [0x40C0_0000, 0x40C0_0000, 0x40C0_0000]),
    (0, 2, [0xC160_0000, 0x40C0_0000, 0x40C0_0000]),
    (1, 2, [0xC160_0000, 0x41C0_0000, 0xC160_0000]),
    (2, 4, [0xC200_0000, 0x41F0_0000, 0x41C0_0000]),
    (3, 1, [0xC200_0000, 0xC200_0000, 0xC200_0000]),
    (4, 2, [0x0000_0000, 0x41F0_0000, 0x41F0_0000]),
    (5, 1, [0x0000_0000, 0x0000_0000, 0x0000_0000]),
];

/// The document's file, worth 24 and 0, which is (-1,1) here.
const IN_THE_DOCUMENT: &[Entry] = &[(11, 1), (-1, 1)];
#[rustfmt::skip]
const OF_THE_DOCUMENT: &[Line] = &[
    (0, 2, [0x0000_0000, 0x41C0_0000, 0x41C0_0000]),
    (1, 1, [0x0000_0000, 0x0000_0000, 0x0000_0000]),
];

/// All below 0: -5, -3, -15 and -1, which are C0A00000 (1.01 * 2^2), C0400000,
/// C1700000 (1.111 * 2^3) and BF800000.
const HALF_UNIT_4: &[Entry] = &[(-3, 0), (-2, 0), (-8, 0), (-1, 0)];
#[rustfmt::skip]
const OF_HALF_UNIT_4: &[Line] = &[
    (0, 4, [0xC170_0000, 0xBF80_0000, 0xC0A0_0000]),
    (0, 2, [0xC0A0_0000, 0xC040_0000, 0xC0A0_0000]),
    (1, 2, [0xC170_0000, 0xC040_0000, 0xC040_0000]),
    (2, 2, [0xC170_0000, 0xBF80_0000, 0xC170_0000]),
];

/// All above 0, between two that are bad: 4, 2, 8 and 6, which are 40800000,
/// 40000000, 41000000 (1.0 * 2^3) and 40C00000.
const ROUND_BIT_3: &[Entry] = &[(4, 0), (1, 1), (0, 1), (3, 1), (3, 0), (0, 2)];
#[rustfmt::skip]
const OF_ROUND_BIT_3: &[Line] = &[
    (1, 4, [0x4000_0000, 0x4100_0000, 0x4080_0000]),
    (1, 2, [0x4000_0000, 0x4080_0000, 0x4080_0000]),
    (3, 2, [0x40C0_0000, 0x4100_0000, 0x4100_0000]),
    (4, 1, [0x40C0_0000, 0x40C0_0000, 0x40C0_0000]),
];

pub fn is([lowest, highest, first]: [u32; 3]) -> ReadingAnswer {
    let reading = Reading {
        lowest,
        highest,
        first,
    };
    ReadingAnswer {
        reading,
        refusal: 0,
    }
}

pub fn by_hand(case: ReadingCase, expected: ReadingAnswer, record: &mut Record) {
    expect("a reading worked by hand", &case, expected, record);
}

fn lines(kind: u32, width: u32, entries: &[Entry], lines: &[Line], record: &mut Record) {
    let records = Records::of(entries);
    for &(first, length, bits) in lines {
        let case = records.whole(kind, width).run(first, length);
        by_hand(case, is(bits), record);
    }
}

pub fn done(_: &mut Random, record: &mut Record) {
    for &(kind, width, entry, bits) in VALUES {
        lines(kind, width, &[entry], &[(0, 1, [bits; 3])], record);
    }
    lines(0, 5, PLAIN_5, OF_PLAIN_5, record);
    lines(1, 5, IN_THE_DOCUMENT, OF_THE_DOCUMENT, record);
    lines(2, 4, HALF_UNIT_4, OF_HALF_UNIT_4, record);
    lines(1, 3, ROUND_BIT_3, OF_ROUND_BIT_3, record);
    // More records than a file can have: 20,000 worth 2, but the last is worth -4.
    let mut long = vec![(1, 0); 20_000];
    long[19_999] = (-2, 0);
    let of_long = [
        (0, 20_000, [0xC080_0000, 0x4000_0000, 0x4000_0000]),
        (0, 19_999, [0x4000_0000, 0x4000_0000, 0x4000_0000]),
        (8_000, 12_000, [0xC080_0000, 0x4000_0000, 0x4000_0000]),
        (19_999, 1, [0xC080_0000, 0xC080_0000, 0xC080_0000]),
    ];
    lines(0, 2, &long, &of_long, record);
}
