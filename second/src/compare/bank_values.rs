//! Banks that are done: every size of number, the ends of the widths, totals at
//! an edge of the cut, and every unit, with those that leave their range.

use super::bank_case::{compare, BankCase};
use super::bank_words::*;
use super::case::Operand;
use super::limits::*;
use super::random::Random;
use super::tally::Record;
use crate::model::bank::{CHANNELS, TAPS};

const MIXED_ENDS: u64 = 20_000;
const EDGES: u64 = 40_000;

/// The ends of a width and what lies beside them, -1, 0 and 1, with both round
/// bits; both words of value 0 are among them, and so are all-zero banks.
fn end_words(width: u32, unit: i32) -> Vec<Operand> {
    let half = 1i64 << (width - 1);
    let mut words = Vec::new();
    for number in [-half, -half + 1, -1, 0, 1, half - 2, half - 1] {
        for round in [0, 1] {
            words.push(alike(number, round, width, unit)[0]);
        }
    }
    words
}

/// Only the two ends, with both round bits: no total is further from 0 than
/// those made of these.
fn extremes(width: u32, unit: i32) -> [Operand; 4] {
    let half = 1i64 << (width - 1);
    [(-half, 0), (-half, 1), (half - 1, 0), (half - 1, 1)]
        .map(|(number, round)| alike(number, round, width, unit)[0])
}

/// One tap in all eight places, and one sample; once the other rows are others,
/// once the whole bank is of this tap.
pub fn alike_in_a_row(random: &mut Random, record: &mut Record) {
    let mut case = any_good(random);
    let units = good_units(random);
    for tap in end_words(TAP_WIDTH, units.0) {
        for sample in end_words(SAMPLE_WIDTH, units.1) {
            for channel in 0..CHANNELS as u32 {
                refill(random, &mut case, channel, units);
                *case.taps() = [tap; TAPS];
                case.window = [sample; TAPS];
                compare(&case, record);
                let whole = BankCase {
                    bank: [[tap; TAPS]; CHANNELS],
                    ..case
                };
                compare(&whole, record);
            }
        }
    }
}

/// Two extremes of one row in every order, against one of the other; then any
/// extreme in any place.
pub fn extremes_mixed(random: &mut Random, record: &mut Record) {
    let mut case = any_good(random);
    for of_taps in [true, false] {
        for order in 0..1 << TAPS {
            let units = good_units(random);
            two_in_one_order(random, &mut case, of_taps, order, units, record);
        }
    }
    for _ in 0..MIXED_ENDS {
        let units = good_units(random);
        let channel = random.below(CHANNELS as u64) as u32;
        refill(random, &mut case, channel, units);
        *case.taps() = [(); TAPS].map(|_| random.one_of(&extremes(TAP_WIDTH, units.0)));
        case.window = [(); TAPS].map(|_| random.one_of(&extremes(SAMPLE_WIDTH, units.1)));
        compare(&case, record);
    }
}

/// A set digit of the order puts the second word in its place.
fn two_in_one_order(
    random: &mut Random,
    case: &mut BankCase,
    of_taps: bool,
    order: usize,
    units: Units,
    record: &mut Record,
) {
    let (taps, samples) = (
        extremes(TAP_WIDTH, units.0),
        extremes(SAMPLE_WIDTH, units.1),
    );
    let (mixed, others) = if of_taps {
        (taps, samples)
    } else {
        (samples, taps)
    };
    for first in 0..mixed.len() {
        for second in 0..first {
            for other in others {
                case.channel = random.below(CHANNELS as u64) as u32;
                *case.row(!of_taps) = [other; TAPS];
                for (place, word) in case.row(of_taps).iter_mut().enumerate() {
                    *word = mixed[if order >> place & 1 == 1 {
                        second
                    } else {
                        first
                    }];
                }
                compare(case, record);
            }
        }
    }
}

/// Every tap there is in every place, and every sample, each with a total at an
/// edge of the cut.
pub fn every_word(random: &mut Random, record: &mut Record) {
    let mut case = any_good(random);
    let half = 1i64 << (TAP_WIDTH - 1);
    for number in -half..half {
        for place in 0..TAPS {
            for round in [0, 1] {
                with_word(random, &mut case, place, (number, round), record);
            }
        }
    }
    let half = 1i64 << (SAMPLE_WIDTH - 1);
    for number in -half..half {
        // The place goes round with the numbers: 2^16 of them are many.
        let place = TAPS + number.rem_euclid(TAPS as i64) as usize;
        for round in [0, 1] {
            with_word(random, &mut case, place, (number, round), record);
        }
    }
}

fn with_word(
    random: &mut Random,
    case: &mut BankCase,
    place: usize,
    word: (i64, u8),
    record: &mut Record,
) {
    renew(random, case);
    let changed = case.word(place);
    (changed.number, changed.round) = word;
    // Any place but its own.
    let other = (place + 1 + random.below(TAPS as u64 - 1) as usize) % TAPS;
    bring_to_an_edge(random, case, other);
    compare(case, record);
}

pub fn edges_of_the_cut(random: &mut Random, record: &mut Record) {
    let mut case = any_good(random);
    for _ in 0..EDGES {
        renew(random, &mut case);
        let place = random.below(TAPS as u64) as usize;
        bring_to_an_edge(random, &mut case, place);
        compare(&case, record);
    }
}

/// Every unit of the taps with every unit of the samples.
pub fn every_unit(random: &mut Random, record: &mut Record) {
    let mut case = any_good(random);
    for of_taps in LEAST_UNIT..=MOST_UNIT {
        for of_samples in LEAST_UNIT..=MOST_UNIT {
            let channel = random.below(CHANNELS as u64) as u32;
            refill(random, &mut case, channel, (of_taps, of_samples));
            compare(&case, record);
        }
    }
}
