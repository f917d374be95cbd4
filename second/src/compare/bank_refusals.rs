//! Banks that are refused: each cause in each place, causes against each other,
//! and what must not be looked at.

use super::bad_banks::*;
use super::bank_case::{compare, BankCase, PLACES};
use super::bank_words::*;
use super::case::Operand;
use super::limits::*;
use super::random::Random;
use super::tally::Record;
use crate::model::bank::{CHANNELS, TAPS};

/// How often each set of causes is made anew: the larger a set, the less its
/// later causes are seen.
const DRAWS: [u64; 4] = [1, 100, 100, 20];

/// Every place with every wrong word, wrong in one field or in several.
pub fn one_wrong(random: &mut Random, record: &mut Record) {
    let mut case = any_good(random);
    for place in 0..PLACES {
        for width in or_good(&BAD_WIDTHS) {
            for unit in or_good(&BAD_UNITS) {
                for round in or_good(&BAD_ROUNDS) {
                    renew(random, &mut case);
                    let word = case.word(place);
                    let numbers = bad_numbers(word.width);
                    word.width = width.unwrap_or(word.width);
                    word.unit = unit.unwrap_or(word.unit);
                    word.round = round.unwrap_or(word.round);
                    compare(&case, record);
                    for number in numbers {
                        case.word(place).number = number;
                        compare(&case, record);
                    }
                }
            }
        }
    }
}

/// The bad ones, and a place for the good one.
fn or_good<T: Copy>(bad: &[T]) -> Vec<Option<T>> {
    let mut all = vec![None];
    all.extend(bad.iter().copied().map(Some));
    all
}

/// Two words wrong at once, in all places and all ways, with the units in their
/// range, the products' past it, and only the output's past it.
pub fn two_wrong(random: &mut Random, record: &mut Record) {
    let mut case = any_good(random);
    for first in 0..PLACES {
        for second in (0..PLACES).filter(|second| *second != first) {
            for spoil_first in SPOILS {
                for spoil_second in SPOILS {
                    for units in [good_units, products_past, output_past] {
                        let units = units(random);
                        let channel = random.below(CHANNELS as u64) as u32;
                        refill(random, &mut case, channel, units);
                        spoil_first(random, case.word(first));
                        spoil_second(random, case.word(second));
                        compare(&case, record);
                    }
                }
            }
        }
    }
}

/// One word of another width, its number at the ends of that width; then whole
/// rows of one width, so that being alike does not help.
pub fn other_widths(random: &mut Random, record: &mut Record) {
    let mut case = any_good(random);
    for width in LEAST_WIDTH..=MOST_WIDTH {
        let half = 1i64 << (width - 1);
        for place in 0..PLACES {
            for number in [-half, -1, 0, half - 1] {
                renew(random, &mut case);
                let word = case.word(place);
                *word = Operand {
                    number,
                    width,
                    ..*word
                };
                compare(&case, record);
            }
        }
        for of_samples in LEAST_WIDTH..=MOST_WIDTH {
            renew(random, &mut case);
            let units = (case.taps()[0].unit, case.window[0].unit);
            *case.taps() = good_row(random, width, units.0);
            case.window = good_row(random, of_samples, units.1);
            compare(&case, record);
        }
    }
}

/// Every unit in every place; then two units that differ by one, in every order.
pub fn unlike_units(random: &mut Random, record: &mut Record) {
    let mut case = any_good(random);
    for place in 0..PLACES {
        for unit in LEAST_UNIT..=MOST_UNIT {
            renew(random, &mut case);
            case.word(place).unit = unit;
            compare(&case, record);
        }
    }
    for of_taps in [true, false] {
        for order in 0..1 << TAPS {
            // With one unit more in all places the units are in their range.
            refill(random, &mut case, order as u32 % CHANNELS as u32, (7, -3));
            for (place, word) in case.row(of_taps).iter_mut().enumerate() {
                word.unit += order >> place & 1;
            }
            compare(&case, record);
        }
    }
}

/// Channels that are one and that are none, with nothing wrong but the channel,
/// and with all else wrong too.
pub fn channels(random: &mut Random, record: &mut Record) {
    let mut all: Vec<u32> = (0..CHANNELS as u32).collect();
    all.extend(NO_CHANNELS);
    // A good channel with one digit more.
    all.extend((2..u32::BITS).flat_map(|digit| (0..CHANNELS as u32).map(move |c| 1 << digit | c)));
    for channel in all {
        let good = any_good(random);
        let all_wrong = BankCase {
            bank: [[WRONG; TAPS]; CHANNELS],
            window: [WRONG; TAPS],
            channel,
        };
        let wrong_taps = BankCase {
            bank: all_wrong.bank,
            ..good
        };
        let wrong_window = BankCase {
            window: all_wrong.window,
            ..good
        };
        let mut past = good;
        let units = products_past(random);
        for row in 0..CHANNELS as u32 {
            refill(random, &mut past, row, units);
        }
        for case in [good, all_wrong, wrong_taps, wrong_window, past] {
            compare(&BankCase { channel, ..case }, record);
        }
    }
}

/// A tap of another channel, wrong or right, changes nothing of the answer, done
/// or refused.
pub fn other_channels(random: &mut Random, record: &mut Record) {
    let mut case = any_good(random);
    for channel in 0..CHANNELS {
        for other in (0..CHANNELS).filter(|other| *other != channel) {
            for tap in 0..TAPS {
                for spoils in [0, 0, 0, 0, 1, 2] {
                    let units = good_units(random);
                    refill(random, &mut case, channel as u32, units);
                    for _ in 0..spoils {
                        let place = random.below(PLACES as u64) as usize;
                        random.one_of(&SPOILS)(random, case.word(place));
                    }
                    let mut changed = case;
                    for word in [WRONG, any_word(random), any_word(random)] {
                        changed.bank[other][tap] = word;
                        same(&case, &changed, record);
                    }
                    changed.bank[other] = [any_word(random); TAPS];
                    same(&case, &changed, record);
                }
            }
        }
    }
}

fn same(case: &BankCase, changed: &BankCase, record: &mut Record) {
    let before = compare(case, record);
    let after = compare(changed, record);
    record.check(before == after, || {
        format!(
            "frost_bank_output, another channel changed\n  \
             case:    {}\n  before:  {:?}\n  after:   {:?}",
            changed.describe(),
            before,
            after
        )
    });
}

/// Every set of causes, the small ones often.
pub fn several_causes(random: &mut Random, record: &mut Record) {
    let mut case = any_good(random);
    for causes in 0..ALL_CAUSES {
        let draws = DRAWS.get(causes.count_ones() as usize).copied();
        for _ in 0..draws.unwrap_or(1) {
            spoil(random, &mut case, causes);
            compare(&case, record);
        }
    }
}
