//! Imports of words that were written as binary64, and what other operations of
//! the library make of the same words: an import to a larger unit drops digits as
//! the even rules of documents 01 and 02 do.

use super::binary64_bits::{of_whole, with_53_digits};
use super::binary64_case::*;
use super::call;
use super::case::{Case, Operand, Reply};
use super::limits::*;
use super::operations::{EVEN_CUT, FROM_PLAIN_EVEN, TO_PLAIN};
use super::random::Random;
use super::tally::Record;

const CUT_WORDS: u64 = 30_000;

/// Of each width and unit both ends and two others: words of up to 53 digits, and
/// wider ones that end in zeros. The width is the word's, or any that is greater.
pub fn come_back(random: &mut Random, record: &mut Record) {
    for width in LEAST_WIDTH..=MOST_WIDTH {
        for unit in LEAST_UNIT..=MOST_UNIT {
            let half = 1i128 << (width - 1);
            let any = random.next() as i128 & (half - 1);
            for number in [-half, half - 1, any, -any] {
                let number = with_53_digits(number);
                let more = random.below((MOST_WIDTH - width) as u64 + 1) as u32;
                let width = width + random.one_of(&[0, more]);
                comes_back(number, width, unit, record);
            }
        }
    }
}

fn comes_back(number: i128, width: u32, unit: i32, record: &mut Record) {
    let bits = of_whole(number, unit).expect("at most 53 digits");
    let case = Binary64Case { bits, width, unit };
    for import in &WHOLE {
        let what = "a word comes back as itself";
        expect(what, import, &case, case.done(number), record);
    }
    // A whole count is a tie: of it and the number before it the even one.
    let what = "a whole count has its lowest digit cleared";
    let expected = case.done(number.div_euclid(2) * 2);
    expect(what, &HALF_UNIT, &case, expected, record);
}

/// A word written at its own unit e and imported at e + d, n - d wide.
pub fn come_back_cut(random: &mut Random, record: &mut Record) {
    for _ in 0..CUT_WORDS {
        let width = LEAST_WIDTH + random.below(WIDTHS) as u32;
        let depth = random.below((width - LEAST_WIDTH) as u64 + 1) as u32;
        let unit = LEAST_UNIT + random.below(UNITS - depth as u64) as i32;
        let word = Operand {
            number: number_of(random, width, depth),
            round: 0,
            width,
            unit,
        };
        let bits = of_whole(word.number as i128, unit).expect("at most 53 digits");
        let case = Binary64Case {
            bits,
            width: width - depth,
            unit: unit + depth as i32,
        };
        for import in &WHOLE {
            let expected = whole(word, depth, record);
            let what = "as an even cut, made plain";
            expect(what, import, &case, expected, record);
        }
        let deep = Case::deep(word, depth as u64);
        let expected = call::compare(FROM_PLAIN_EVEN, &deep, record);
        let what = "as from plain by the even rule";
        expect(what, &HALF_UNIT, &case, expected, record);
    }
}

/// Any of the width, often with the dropped digits 0 or 1 followed by zeros.
fn number_of(random: &mut Random, width: u32, depth: u32) -> i64 {
    let half = 1i64 << (width - 1);
    let any = random.next() as i64 & (half - 1);
    let kept = any >> depth << depth;
    let number = match random.below(4) {
        0 => kept,
        1 if depth > 0 => kept | 1 << (depth - 1),
        _ => any,
    };
    let number = random.one_of(&[number, number - half, -number]);
    with_53_digits(number as i128) as i64
}

/// What the library's own even cut of (x,0) is worth; 8 if that has no plain word.
fn whole(word: Operand, depth: u32, record: &mut Record) -> Reply {
    let cut = call::compare(EVEN_CUT, &Case::deep(word, depth as u64), record);
    call::compare(TO_PLAIN, &Case::of(Operand::of(cut.word)), record)
}
