//! Banks and windows to compare with: good ones, of every size of number and in
//! every unit.

use super::bank_case::{BankCase, Row};
use super::case::Operand;
use super::limits::*;
use super::random::Random;
use super::random_cases::any_narrower;
use crate::model::bank::{self, CHANNELS, TAPS};
use crate::model::digits::power;

pub const TAP_WIDTH: u32 = bank::TAP_WIDTH as u32;
pub const SAMPLE_WIDTH: u32 = bank::SAMPLE_WIDTH as u32;
const CUT: i32 = bank::CUT as i32;

/// The units of a channel's taps and of the samples.
pub type Units = (i32, i32);

/// Neither the products' unit nor the output's leaves its range; each of the two
/// is often at its end.
pub fn good_units(random: &mut Random) -> Units {
    let least = LEAST_UNIT;
    let most = MOST_UNIT - CUT;
    let products = match random.below(4) {
        0 => least,
        1 => most,
        _ => least + random.below((most - least + 1) as u64) as i32,
    };
    units_of(random, products)
}

/// The products' unit leaves its range, at either end, often just.
pub fn products_past(random: &mut Random) -> Units {
    let past = match random.below(2) {
        0 => 1,
        _ => 1 + random.below(MOST_UNIT as u64) as i32,
    };
    let products = random.one_of(&[LEAST_UNIT - past, MOST_UNIT + past]);
    units_of(random, products)
}

/// The output's unit leaves its range, and the products' does not.
pub fn output_past(random: &mut Random) -> Units {
    let products = MOST_UNIT - random.below(CUT as u64) as i32;
    units_of(random, products)
}

/// Any two units that add up to the products'.
fn units_of(random: &mut Random, products: i32) -> Units {
    let least = LEAST_UNIT.max(products - MOST_UNIT);
    let most = MOST_UNIT.min(products - LEAST_UNIT);
    let taps = least + random.below((most - least + 1) as u64) as i32;
    (taps, products - taps)
}

/// A good word, small numbers as often as large ones, and often at an end.
pub fn good_word(random: &mut Random, width: u32, unit: i32) -> Operand {
    let half = 1i64 << (width - 1);
    let number = match random.below(8) {
        0 => -half,
        1 => half - 1,
        _ => any_narrower(random, width) as i64,
    };
    Operand {
        number,
        round: random.below(2) as u8,
        width,
        unit,
    }
}

pub fn good_row(random: &mut Random, width: u32, unit: i32) -> Row {
    [(); TAPS].map(|_| good_word(random, width, unit))
}

/// A row of eight words alike.
pub fn alike(number: i64, round: u8, width: u32, unit: i32) -> Row {
    let word = Operand {
        number,
        round,
        width,
        unit,
    };
    [word; TAPS]
}

/// A good case; the other rows are good ones too, in units of their own.
pub fn any_good(random: &mut Random) -> BankCase {
    let mut case = BankCase::BLANK;
    for channel in 0..CHANNELS as u32 {
        let units = good_units(random);
        refill(random, &mut case, channel, units);
    }
    let channel = random.below(CHANNELS as u64) as u32;
    let units = good_units(random);
    refill(random, &mut case, channel, units);
    case
}

/// Other taps for one channel, and another window; the other rows stay as they
/// were, so that an answer from one of them is seen.
pub fn refill(random: &mut Random, case: &mut BankCase, channel: u32, units: Units) {
    case.channel = channel;
    *case.taps() = good_row(random, TAP_WIDTH, units.0);
    case.window = good_row(random, SAMPLE_WIDTH, units.1);
}

/// Another good case, of any channel.
pub fn renew(random: &mut Random, case: &mut BankCase) {
    let channel = random.below(CHANNELS as u64) as u32;
    let units = good_units(random);
    refill(random, case, channel, units);
}

/// Makes the tap in this place (1,0) and its sample such that the total's number
/// is the first or the last before the cut's digits change: one more or one less
/// in any product or carry then shows, which mostly would be cut away.
pub fn bring_to_an_edge(random: &mut Random, case: &mut BankCase, place: usize) {
    let tap = &mut case.taps()[place];
    (tap.number, tap.round) = (1, 0);
    let sample = &mut case.window[place];
    (sample.number, sample.round) = (0, 0);
    let total = bank::total(
        &case.taps().map(Operand::word),
        &case.window.map(Operand::word),
    );
    // A refused total is compared like any other, and told there.
    // The round bit is the digit below the cut, so it changes twice as often.
    let step = power(bank::CUT - 1);
    let edge = random.below(2) as i128;
    case.window[place].number = (-edge - total.word.number).rem_euclid(step) as i64;
}
