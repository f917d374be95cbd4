//! Document 01, section "Round-bit words" (all of it but the digit text), with
//! the even cut as document 02, Ask 2 has it.
//! Written from documents 01 and 02 alone; it shares nothing with crates/.

use super::causes::*;
use super::digits::*;
use super::kinds::{PLAIN, ROUND_BIT};
use super::words::*;

pub fn sign_change(word: RoundBit) -> Answer<RoundBit> {
    match word.causes() {
        DONE => Answer::done(negated(word)),
        refusal => Answer::refused(refusal),
    }
}

fn negated(word: RoundBit) -> RoundBit {
    RoundBit {
        number: -1 - word.number,
        round: 1 - word.round,
        ..word
    }
}

fn causes_of_cutting(word: RoundBit, d: i128) -> u32 {
    first_of(&[word.causes(), causes_of_cut(word.width, word.unit, d)])
}

pub fn cut(word: RoundBit, d: i128) -> Answer<RoundBit> {
    let refusal = causes_of_cutting(word, d);
    if refusal != DONE {
        return Answer::refused(refusal);
    }
    if d == 0 {
        return Answer::done(word);
    }
    Answer::done(RoundBit {
        number: floor(word.number, d),
        round: digit(word.number, d - 1),
        width: word.width - d,
        unit: word.unit + d,
    })
}

pub fn rest(word: RoundBit, d: i128) -> Answer<RoundBit> {
    let refusal = causes_of_cutting(word, d);
    if refusal != DONE {
        return Answer::refused(refusal);
    }
    if d == 0 {
        return Answer::done(RoundBit {
            number: 0,
            round: 0,
            ..word
        });
    }
    // The old round bit stays in the rest, or the running total would creep.
    Answer::done(RoundBit {
        number: low_digits(word.number, d),
        ..word
    })
}

/// Ask 2: the rule goes by the value a + r, not by the digits of a alone.
pub fn even_cut(word: RoundBit, d: i128) -> Answer<RoundBit> {
    let answer = cut(word, d);
    if answer.refusal != DONE || d == 0 {
        return answer;
    }
    // A tie: half a new unit above floor(a / 2^d) new units, in old units.
    let new_units = floor(word.number, d);
    let half_above = new_units * power(d) + power(d - 1);
    let is_tie = word.number + word.round == half_above;
    let round = if is_tie {
        digit(new_units, 0)
    } else {
        digit(word.number, d - 1)
    };
    Answer::done(RoundBit {
        round,
        ..answer.word
    })
}

pub fn widen(word: RoundBit, d: i128) -> Answer<RoundBit> {
    let format = causes_of_format(word.width + d, word.unit - d);
    let refusal = first_of(&[word.causes(), format]);
    if refusal != DONE {
        return Answer::refused(refusal);
    }
    // The round bit is a digit repeated without end, so it fills the new places.
    Answer::done(RoundBit {
        number: word.number * power(d) + word.round * (power(d) - 1),
        round: word.round,
        width: word.width + d,
        unit: word.unit - d,
    })
}

/// Cause 4, of a sum's operands or of a word and its running sum.
pub fn cause_of_difference(first: RoundBit, second: RoundBit) -> u32 {
    let differ = first.width != second.width || first.unit != second.unit;
    refuse_if(differ, OPERANDS_DIFFER)
}

pub fn sum(first: RoundBit, second: RoundBit) -> Answer<RoundBit> {
    let differ = cause_of_difference(first, second);
    let refusal = first_of(&[first.causes(), second.causes(), differ]);
    if refusal != DONE {
        return Answer::refused(refusal);
    }
    let both = first.round * second.round;
    let either = first.round + second.round - both;
    let number = first.number + second.number + both;
    // The number is tested, not the value: see P4.
    if !ROUND_BIT.fits(number, first.width) {
        return Answer::refused(ANSWER_DOES_NOT_FIT);
    }
    Answer::done(RoundBit {
        number,
        round: either,
        ..first
    })
}

/// The neutral word (0,0) of a format.
pub fn neutral(width: i128, unit: i128) -> RoundBit {
    RoundBit {
        number: 0,
        round: 0,
        width,
        unit,
    }
}

pub fn difference(first: RoundBit, second: RoundBit) -> Answer<RoundBit> {
    // A word with causes 1 to 3 cannot be sign-changed; the sum names them.
    match second.causes() {
        DONE => sum(first, negated(second)),
        _ => sum(first, second),
    }
}

pub fn product(first: RoundBit, second: RoundBit) -> Answer<RoundBit> {
    let width = first.width + second.width - 1;
    let unit = first.unit + second.unit;
    let format = causes_of_format(width, unit);
    let refusal = first_of(&[first.causes(), second.causes(), format]);
    if refusal != DONE {
        return Answer::refused(refusal);
    }
    let x = not_negative(first);
    let y = not_negative(second);
    let word = RoundBit {
        number: x.number * y.number + x.number * y.round + y.number * x.round,
        round: x.round * y.round,
        width,
        unit,
    };
    let exactly_one = (first.number < 0) != (second.number < 0);
    Answer::done(if exactly_one { negated(word) } else { word })
}

/// The sign of the number decides, not that of the value: (-1,1) is changed.
fn not_negative(word: RoundBit) -> RoundBit {
    if word.number < 0 {
        negated(word)
    } else {
        word
    }
}

pub fn to_plain(word: RoundBit) -> Answer<Plain> {
    let refusal = word.causes();
    if refusal != DONE {
        return Answer::refused(refusal);
    }
    let number = word.number + word.round;
    if !PLAIN.fits(number, word.width) {
        return Answer::refused(ANSWER_DOES_NOT_FIT);
    }
    Answer::done(Plain {
        number,
        width: word.width,
        unit: word.unit,
    })
}

pub fn from_plain(word: Plain) -> Answer<RoundBit> {
    match word.causes() {
        DONE => Answer::done(with_round_bit_0(word)),
        refusal => Answer::refused(refusal),
    }
}

pub fn with_round_bit_0(word: Plain) -> RoundBit {
    RoundBit {
        number: word.number,
        round: 0,
        width: word.width,
        unit: word.unit,
    }
}
