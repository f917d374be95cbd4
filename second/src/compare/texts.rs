//! The two operations of the digit text, called in both programs on one case.

use super::case::{Case, Operand};
use super::fall;
use super::lent::Lent;
use super::library::*;
use super::operations::{TEXT_READ, TEXT_WRITE};
use super::tally::Record;
use crate::model::causes::DONE;
use crate::model::digit_text::{self, TextAnswer};
use crate::model::words::RoundBit;

/// Writes a word's text into a buffer of the room given; gives back what the
/// library left in the buffer.
pub fn compare_write(word: Operand, room: usize, record: &mut Record) -> Vec<u8> {
    let salt = record.cases;
    let mut library_text = Lent::bytes(room, salt);
    let mut second_text = Lent::bytes(room, salt);
    let case = Case::deep(word, room as u64);
    fall::about_to_call("frost_digit_text_write", Some(&case), &[]);
    let answer =
        unsafe { frost_digit_text_write(word.for_library(), library_text.pointer(), room) };
    fall::back();
    let library = answer.model();
    let second = digit_text::write(word.word(), second_text.lend());
    record.answer(TEXT_WRITE, library.refusal);
    let agrees = library == second && library_text == second_text;
    record.check(agrees, || {
        let difference = library_text.first_difference(&second_text);
        let text = String::from_utf8_lossy(second_text.content()).into_owned();
        format!(
            "frost_digit_text_write\n  case:    {:?}, room {}\n  \
             library: {:?}\n  second:  {:?} {:?}\n  first byte that differs (library, second): {}",
            word, room, library, second, text, difference
        )
    });
    library_text.content().to_vec()
}

/// Reads a text; it is lent, so it must stay as it was. The library's answer,
/// with its place, is given back.
pub fn compare_read(text: &[u8], unit: i32, record: &mut Record) -> TextAnswer {
    let mut lent = Lent::holding_bytes(text, record.cases);
    let before = lent.clone();
    fall::about_to_call("frost_digit_text_read", None, text);
    let answer = unsafe { frost_digit_text_read(lent.pointer(), text.len(), unit) };
    fall::back();
    let library = answer.model();
    let second = digit_text::read(text, unit as i128);
    let is_its_text = second.refusal != DONE || is_text_of(text, second.word);
    record.answer(TEXT_READ, library.refusal);
    let agrees = library == second && lent == before && is_its_text;
    record.check(agrees, || {
        format!(
            "frost_digit_text_read\n  case:    {}\n  library: {:?}\n  second:  {:?}\n  \
             first byte of the text changed: {}, second's word has this text: {}",
            described(text, unit),
            library,
            second,
            lent.first_difference(&before),
            is_its_text
        )
    });
    library
}

/// Holds the library's reading against an answer that is worked out by hand.
pub fn expect_read(line: &str, text: &[u8], unit: i32, by_hand: TextAnswer, record: &mut Record) {
    let library = compare_read(text, unit, record);
    record.check(library == by_hand, || {
        let given = described(text, unit);
        format!(
            "{}\n  case:    {}\n  library: {:?}\n  by hand: {:?}",
            line, given, library, by_hand
        )
    });
}

/// Each byte stands for itself, so that a place can be counted off.
pub fn described(text: &[u8], unit: i32) -> String {
    format!("\"{}\", unit {}", text.escape_ascii(), unit)
}

/// "The answer is the word whose digit text it is": asked of the second
/// program itself, whose reading does not go by its writing.
fn is_text_of(text: &[u8], word: RoundBit) -> bool {
    let mut again = vec![0; text.len()];
    digit_text::write(word, &mut again).refusal == DONE && again == text
}
