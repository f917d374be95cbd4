//! Sum is commutative (document 02, Ask 9), refusals and all, and (0,0) is its neutral
//! word (document 01): the library's own answers, held against each other.

use super::block_sum_random::any_unit;
use super::call::compare;
use super::case::{Case, Operand, Reply};
use super::limits::*;
use super::move_case::ROUND_BIT;
use super::move_ends::refusal_of_word;
use super::operations::SUM;
use super::random::Random;
use super::random_cases;
use super::tally::Record;

const WIDEST: u32 = LEAST_WIDTH + 2;
const RANDOM_PAIRS: u64 = 100_000;

fn sum(first: Operand, second: Operand, record: &mut Record) -> Reply {
    compare(SUM, &Case::pair(first, second), record)
}

/// Two right words, or one right and one wrong, of like formats or unlike. Of two wrong
/// ones each order names its own first, and that is no law of sums.
fn both_orders(first: Operand, second: Operand, record: &mut Record) {
    let here = sum(first, second, record);
    let there = sum(second, first, record);
    let is_wrong = |word| refusal_of_word(&ROUND_BIT, word) != 0;
    if is_wrong(first) && is_wrong(second) {
        return;
    }
    record.check(here == there, || {
        format!(
            "sum is commutative\n  case:    {:?}, {:?}\n  library: {:?}\n  other:   {:?}",
            first, second, here, there
        )
    });
}

/// All words of small widths at two units, so of like formats and of unlike.
fn small_words() -> Vec<Operand> {
    let mut words = Vec::new();
    for width in LEAST_WIDTH..=WIDEST {
        let half = 1i64 << (width - 1);
        for number in -half..half {
            words.extend(with_rounds(number, width, 0));
            words.extend(with_rounds(number, width, MOST_UNIT));
        }
    }
    words
}

fn with_rounds(number: i64, width: u32, unit: i32) -> [Operand; 2] {
    [0, 1].map(|round| Operand {
        number,
        round,
        width,
        unit,
    })
}

/// Those at the ends of a width and about 0.
fn end_words(width: u32, unit: i32) -> Vec<Operand> {
    let half = 1i64 << (width - 1);
    let numbers = [-half, 1 - half, -1, 0, 1, half - 2, half - 1];
    let words = numbers.map(|number| with_rounds(number, width, unit));
    words.concat()
}

pub fn in_both_orders(random: &mut Random, record: &mut Record) {
    let small = small_words();
    for &first in &small {
        for &second in &small {
            both_orders(first, second, record);
        }
    }
    for width in LEAST_WIDTH..=MOST_WIDTH {
        let words = end_words(width, any_unit(random));
        for &first in &words {
            for &second in &words {
                both_orders(first, second, record);
            }
        }
    }
    for _ in 0..RANDOM_PAIRS {
        let first = random_cases::word(random);
        let other = random_cases::word(random);
        both_orders(first, other, record);
        // Of the first one's format, with a number that mostly fits it.
        let digits = first.width.clamp(1, i64::BITS);
        let number = random_cases::any_narrower(random, digits) as i64;
        let round = random.below(2) as u8;
        let alike = Operand {
            number,
            round,
            ..first
        };
        both_orders(first, alike, record);
    }
}

/// On both sides of every small word, and of those at the ends of every width.
pub fn neutral_word(random: &mut Random, record: &mut Record) {
    let mut words = small_words();
    for width in LEAST_WIDTH..=MOST_WIDTH {
        words.extend(end_words(width, any_unit(random)));
    }
    for word in words {
        let neutral = Operand {
            number: 0,
            round: 0,
            ..word
        };
        let same = Reply {
            word: word.fields(),
            sum: None,
            refusal: 0,
        };
        let before = sum(neutral, word, record);
        let behind = sum(word, neutral, record);
        record.check((before, behind) == (same, same), || {
            format!(
                "(0,0) is neutral\n  case:    {:?}\n  library: {:?}\n  other:   {:?}",
                word, before, behind
            )
        });
    }
}
