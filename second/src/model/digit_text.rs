//! Document 01, section "Round-bit words", its last item: the digit text, with
//! the reading as document 02, Ask 3 has it.
//! Written from documents 01 and 02 alone; it shares nothing with crates/.

use super::causes::*;
use super::digits::digit;
use super::words::*;

pub fn write(word: RoundBit, text: &mut [u8]) -> Written {
    let too_short = refuse_if((text.len() as i128) < word.width, BUFFER_TOO_SHORT);
    let refusal = first_of(&[word.causes(), too_short]);
    if refusal != DONE {
        return Written::refused(refusal);
    }
    let mut place = 0;
    // Most significant first; bytes after the n of the text stay as they were.
    for i in (0..word.width).rev() {
        text[place] = letter(signed_digit(word, i));
        place += 1;
    }
    Written::done(place)
}

/// Digit i of the text: digit i-1 of a minus digit i of a, r below the lowest.
fn signed_digit(word: RoundBit, i: i128) -> i128 {
    let below = if i == 0 {
        word.round
    } else {
        digit(word.number, i - 1)
    };
    below - digit(word.number, i)
}

fn letter(digit: i128) -> u8 {
    match digit {
        1 => b'+',
        0 => b'0',
        _ => b'-',
    }
}

/// What reading answers: a word, the refusal number, and by Ask 3 the place of
/// what is wrong, "counted from 0 at the most significant end".
#[derive(Clone, Copy, Debug, PartialEq, Eq)]
pub struct TextAnswer {
    pub word: RoundBit,
    pub refusal: u32,
    pub place: i128,
}

impl TextAnswer {
    /// "Done and the other refusals give place 0."
    fn without_place(answer: Answer<RoundBit>) -> TextAnswer {
        TextAnswer {
            word: answer.word,
            refusal: answer.refusal,
            place: 0,
        }
    }

    fn refused_at(place: usize, refusal: u32) -> TextAnswer {
        TextAnswer {
            place: place as i128,
            ..TextAnswer::without_place(Answer::refused(refusal))
        }
    }
}

/// 1 and 2 are an operand's, so before the others; "13 stands directly before 9;
/// a text with both faults gives 13", wherever they stand.
pub fn read(text: &[u8], unit: i128) -> TextAnswer {
    let refusal = causes_of_operand(text.len() as i128, unit);
    if refusal != DONE {
        return TextAnswer::without_place(Answer::refused(refusal));
    }
    if let Some(place) = leftmost_byte_outside(text) {
        return TextAnswer::refused_at(place, BYTE_WRONG);
    }
    if let Some(place) = leftmost_repeated_sign(text) {
        return TextAnswer::refused_at(place, SIGN_REPEATED);
    }
    TextAnswer::without_place(Answer::done(word_of(text, unit)))
}

/// Ask 3: "a byte outside the three is 13"; "For 13 it is the leftmost such byte".
fn leftmost_byte_outside(text: &[u8]) -> Option<usize> {
    for (place, &byte) in text.iter().enumerate() {
        if byte != b'+' && byte != b'0' && byte != b'-' {
            return Some(place);
        }
    }
    None
}

/// Of a text of the three alone. Ask 3: "for 9 it is the leftmost sign that repeats
/// the sign before it"; by document 01 "with nothing or only zeros between them".
fn leftmost_repeated_sign(text: &[u8]) -> Option<usize> {
    let mut sign_before = None;
    for (place, &byte) in text.iter().enumerate() {
        if byte == b'0' {
            continue;
        }
        if sign_before == Some(byte) {
            return Some(place);
        }
        sign_before = Some(byte);
    }
    None
}

/// The word whose digit text this is; every text without a fault has one.
fn word_of(text: &[u8], unit: i128) -> RoundBit {
    let (value, lowest) = value_and_lowest_digit(text);
    // Below the lowest nonzero digit every digit of a equals r; a `+` there
    // says that they are 1, a `-` that they are 0, and all zeros mean (0,0).
    let round = (lowest == 1) as i128;
    RoundBit {
        number: value - round,
        round,
        width: text.len() as i128,
        unit,
    }
}

/// The value of the digits, and the lowest nonzero digit (0 if there is none).
fn value_and_lowest_digit(text: &[u8]) -> (i128, i128) {
    let mut value = 0;
    let mut lowest = 0;
    for &byte in text {
        let digit = match byte {
            b'+' => 1,
            b'-' => -1,
            _ => 0,
        };
        value = 2 * value + digit;
        if digit != 0 {
            lowest = digit;
        }
    }
    (value, lowest)
}
