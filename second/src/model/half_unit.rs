//! Document 01, section "Half-unit words".
//! Written from document 01 alone; it shares nothing with crates/.

use super::causes::*;
use super::digits::*;
use super::kinds::HALF_UNIT;
use super::round_bit::with_round_bit_0;
use super::words::*;

pub fn sign_change(word: HalfUnit) -> Answer<HalfUnit> {
    match word.causes() {
        DONE => Answer::done(HalfUnit {
            number: -1 - word.number,
            ..word
        }),
        refusal => Answer::refused(refusal),
    }
}

pub fn cut(word: HalfUnit, d: i128) -> Answer<HalfUnit> {
    let format = causes_of_cut(word.width, word.unit, d);
    match first_of(&[word.causes(), format]) {
        DONE => Answer::done(HalfUnit {
            number: floor(word.number, d),
            width: word.width - d,
            unit: word.unit + d,
        }),
        refusal => Answer::refused(refusal),
    }
}

pub fn from_plain_up(word: Plain, d: i128) -> Answer<HalfUnit> {
    let format = causes_of_cut(word.width, word.unit, d);
    match first_of(&[word.causes(), format]) {
        DONE => Answer::done(HalfUnit {
            number: floor(word.number, d),
            width: word.width - d,
            unit: word.unit + d,
        }),
        refusal => Answer::refused(refusal),
    }
}

pub fn from_plain_even(word: Plain, d: i128) -> Answer<HalfUnit> {
    let answer = from_plain_up(word, d);
    if answer.refusal != DONE {
        return answer;
    }
    // With d = 0 no digit is dropped, so "all dropped digits are 0" holds.
    let all_zero = (0..d).all(|i| digit(word.number, i) == 0);
    if !all_zero {
        return answer;
    }
    let number = clear_lowest_digit(answer.word.number);
    Answer::done(HalfUnit {
        number,
        ..answer.word
    })
}

pub fn to_plain(word: HalfUnit) -> Answer<Plain> {
    let format = causes_of_format(word.width + 1, word.unit - 1);
    match first_of(&[word.causes(), format]) {
        DONE => Answer::done(Plain {
            number: 2 * word.number + 1,
            width: word.width + 1,
            unit: word.unit - 1,
        }),
        refusal => Answer::refused(refusal),
    }
}

pub fn to_round_bit(word: HalfUnit) -> Answer<RoundBit> {
    let plain = to_plain(word);
    match plain.refusal {
        DONE => Answer::done(with_round_bit_0(plain.word)),
        refusal => Answer::refused(refusal),
    }
}

pub fn from_round_bit(word: RoundBit) -> Answer<HalfUnit> {
    let format = causes_of_format(word.width + 1, word.unit - 1);
    match first_of(&[word.causes(), format]) {
        DONE => Answer::done(HalfUnit {
            number: 2 * word.number + word.round,
            width: word.width + 1,
            unit: word.unit - 1,
        }),
        refusal => Answer::refused(refusal),
    }
}

pub fn sum_up(first: HalfUnit, second: HalfUnit) -> Answer<HalfUnit> {
    sum(first, second, first.number + second.number + 1)
}

pub fn sum_even(first: HalfUnit, second: HalfUnit) -> Answer<HalfUnit> {
    let up = first.number + second.number + 1;
    sum(first, second, clear_lowest_digit(up))
}

/// Only the final number, of either rule, is tested for 8.
fn sum(first: HalfUnit, second: HalfUnit, number: i128) -> Answer<HalfUnit> {
    let differ = first.width != second.width || first.unit != second.unit;
    let refusal = first_of(&[
        first.causes(),
        second.causes(),
        refuse_if(differ, OPERANDS_DIFFER),
    ]);
    if refusal != DONE {
        return Answer::refused(refusal);
    }
    if !HALF_UNIT.fits(number, first.width) {
        return Answer::refused(ANSWER_DOES_NOT_FIT);
    }
    Answer::done(HalfUnit { number, ..first })
}

pub fn product(first: HalfUnit, second: HalfUnit) -> Answer<HalfUnit> {
    let width = first.width + second.width;
    let unit = first.unit + second.unit - 1;
    let format = causes_of_format(width, unit);
    let refusal = first_of(&[first.causes(), second.causes(), format]);
    if refusal != DONE {
        return Answer::refused(refusal);
    }
    // Both factors are odd, so the division by 2 is exact.
    let odd = (2 * first.number + 1) * (2 * second.number + 1);
    Answer::done(HalfUnit {
        number: (odd - 1) / 2,
        width,
        unit,
    })
}
