//! What can be wrong with a bank, its window and its channel: single causes, and
//! sets of them.

use super::bank_case::BankCase;
use super::bank_words::*;
use super::case::Operand;
use super::limits::*;
use super::random::Random;
use super::random_cases::any_narrower;
use crate::model::bank::{CHANNELS, TAPS};

/// Some look like 12 or 16 to a program that drops their high digits.
pub const BAD_WIDTHS: [u32; 9] = [
    0,
    LEAST_WIDTH - 1,
    MOST_WIDTH + 1,
    MOST_WIDTH + 2,
    256 + TAP_WIDTH,
    256 + SAMPLE_WIDTH,
    65_536 + TAP_WIDTH,
    1 << 31,
    u32::MAX,
];

pub const BAD_UNITS: [i32; 6] = [LEAST_UNIT - 1, MOST_UNIT + 1, 256, -256, i32::MIN, i32::MAX];

pub const BAD_ROUNDS: [u8; 5] = [2, 3, 128, 254, 255];

/// Numbers just outside and far outside a width that is one; the middle two are
/// in it for a program that drops their high digits.
pub fn bad_numbers(width: u32) -> [i64; 6] {
    let half = 1i64 << (width.clamp(LEAST_WIDTH, MOST_WIDTH) - 1);
    [half, -half - 1, 1 << 32, -1 << 32, i64::MIN, i64::MAX]
}

/// The channels that are none; some are one in fewer bits.
pub const NO_CHANNELS: [u32; 13] = [
    4,
    5,
    6,
    7,
    8,
    255,
    256,
    257,
    65_536 + 3,
    i32::MAX as u32,
    1 << 31,
    (1 << 31) + 1,
    u32::MAX,
];

/// Makes one word wrong in one way.
pub type Spoil = fn(&mut Random, &mut Operand);

/// Causes 1, 2, 3 (of two kinds), and then 4 (of two kinds).
pub const SPOILS: [Spoil; 6] = [
    |random, word| word.width = random.one_of(&BAD_WIDTHS),
    |random, word| word.unit = random.one_of(&BAD_UNITS),
    |random, word| word.number = random.one_of(&bad_numbers(word.width)),
    |random, word| word.round = random.one_of(&BAD_ROUNDS),
    other_unit,
    other_width,
];

/// A good unit, and not the word's.
fn other_unit(random: &mut Random, word: &mut Operand) {
    let was = word.unit;
    while word.unit == was {
        word.unit = match random.below(2) {
            0 => was.saturating_add(random.one_of(&[-1, 1])),
            _ => LEAST_UNIT + random.below(UNITS) as i32,
        };
        word.unit = word.unit.clamp(LEAST_UNIT, MOST_UNIT);
    }
}

/// A good word of a width that is not the word's.
fn other_width(random: &mut Random, word: &mut Operand) {
    let was = word.width;
    while word.width == was {
        word.width = match random.below(4) {
            0 => random.one_of(&[was.saturating_sub(1), was.saturating_add(1)]),
            1 => random.one_of(&[TAP_WIDTH, SAMPLE_WIDTH]),
            _ => LEAST_WIDTH + random.below(WIDTHS) as u32,
        };
        word.width = word.width.clamp(LEAST_WIDTH, MOST_WIDTH);
    }
    word.number = any_narrower(random, word.width) as i64;
}

/// Wrong in every field, as a tap that is not looked at may be.
pub const WRONG: Operand = Operand {
    number: i64::MIN,
    round: 255,
    width: u32::MAX,
    unit: i32::MIN,
};

/// A wrong word, or a good one of any width and unit.
pub fn any_word(random: &mut Random) -> Operand {
    let width = LEAST_WIDTH + random.below(WIDTHS) as u32;
    let unit = LEAST_UNIT + random.below(UNITS) as i32;
    let mut word = good_word(random, width, unit);
    for spoil in SPOILS {
        if random.once_in(4) {
            spoil(random, &mut word);
        }
    }
    word
}

/// One bit for each: each spoil of a tap, each of a sample, the products' unit
/// past its range, the output's, a wrong tap of another channel, a channel that
/// is none.
const PRODUCTS_PAST: usize = 2 * SPOILS.len();
const OUTPUT_PAST: usize = PRODUCTS_PAST + 1;
const OTHER_CHANNEL: usize = OUTPUT_PAST + 1;
const NO_CHANNEL: usize = OTHER_CHANNEL + 1;
pub const ALL_CAUSES: u32 = 1 << (NO_CHANNEL + 1);

/// Makes a case with every cause in the set, each in any place.
pub fn spoil(random: &mut Random, case: &mut BankCase, causes: u32) {
    let has = |cause: usize| causes >> cause & 1 == 1;
    let units = match (has(PRODUCTS_PAST), has(OUTPUT_PAST)) {
        (true, _) => products_past(random),
        (_, true) => output_past(random),
        _ => good_units(random),
    };
    let channel = random.below(CHANNELS as u64) as u32;
    refill(random, case, channel, units);
    // The causes of 4 first: a number that is outside comes out of the width
    // that the word has at last.
    for (kind, spoil) in SPOILS.iter().enumerate().rev() {
        for (row, cause) in [(0, kind), (TAPS, SPOILS.len() + kind)] {
            if has(cause) {
                let place = row + random.below(TAPS as u64) as usize;
                spoil(random, case.word(place));
            }
        }
    }
    if has(OTHER_CHANNEL) {
        let other = (channel + 1 + random.below(CHANNELS as u64 - 1) as u32) % CHANNELS as u32;
        case.bank[other as usize][random.below(TAPS as u64) as usize] = any_word(random);
    }
    if has(NO_CHANNEL) {
        case.channel = random.one_of(&NO_CHANNELS);
    }
}
