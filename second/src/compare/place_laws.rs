//! The laws of reading a digit text that document 02, Ask 3 states, and those of
//! document 01 that it leaves. They are worked out here from the bytes of the
//! text, and the second program's reading is not asked; so the numbers stand here
//! as they stand in the documents, and not under the model's names.

use super::case::Operand;
use super::tally::Record;
use super::texts::{compare_read, compare_write, described};
use crate::model::digit_text::TextAnswer;
use crate::model::words::{RoundBit, Word};

/// Whether the answer keeps a law, and the law.
type Law = (bool, &'static str);

const BLANK: RoundBit = RoundBit {
    number: 0,
    round: 0,
    width: 2,
    unit: 0,
};

/// Compares the reading of a text, and holds the library's answer to every law.
pub fn hold(text: &[u8], unit: i32, record: &mut Record) -> TextAnswer {
    let answer = compare_read(text, unit, record);
    for (kept, law) in laws(text, unit, answer) {
        record.check(kept, || broken(law, text, unit, answer));
    }
    if answer.refusal == 0 {
        // By the library's own call, which is compared as well.
        let word = Operand::of(answer.word.fields());
        let again = compare_write(word, text.len(), record);
        let law = "the answer is the word whose digit text it is";
        record.check(again == text, || broken(law, text, unit, answer));
    }
    answer
}

fn broken(law: &str, text: &[u8], unit: i32, library: TextAnswer) -> String {
    format!(
        "a law of reading a digit text: {}\n  case:    {}\n  library: {:?}",
        law,
        described(text, unit),
        library
    )
}

fn laws(text: &[u8], unit: i32, answer: TextAnswer) -> Vec<Law> {
    let mut laws = vec![law_of_format(text, unit, answer.refusal)];
    laws.extend(match answer.refusal {
        0 => laws_of_done(text, unit, answer),
        1 | 2 => vec![(answer.place == 0, "the other refusals give place 0")],
        9 => laws_of_9(text, answer.place as usize),
        13 => laws_of_13(text, answer.place as usize),
        _ => vec![(false, "no other refusal")],
    });
    if answer.refusal != 0 {
        laws.push((answer.word == BLANK, "a refusal returns the blank word"));
    }
    laws
}

/// 1 and 2 stand before the others, so they do not go by the bytes; 0 is neither.
pub fn refusal_of_format(length: usize, unit: i32) -> u32 {
    match ((2..=63).contains(&length), (-127..=127).contains(&unit)) {
        (false, _) => 1,
        (true, false) => 2,
        (true, true) => 0,
    }
}

fn law_of_format(text: &[u8], unit: i32, refusal: u32) -> Law {
    let kept = match refusal_of_format(text.len(), unit) {
        0 => refusal != 1 && refusal != 2,
        cause => refusal == cause,
    };
    let law = "1 exactly where the length is no width, then 2 where the unit is outside";
    (kept, law)
}

fn laws_of_done(text: &[u8], unit: i32, answer: TextAnswer) -> Vec<Law> {
    let format = (answer.word.width, answer.word.unit);
    let repeated = (0..text.len()).any(|place| repeats(text, place));
    let mut laws = vec![
        (answer.place == 0, "done gives place 0"),
        (all_digits(text), "done only if every byte is of the three"),
        (!repeated, "done only if no sign repeats"),
        (
            format == (text.len() as i128, unit as i128),
            "the length is the width, and the unit is the one given",
        ),
    ];
    if !text.iter().any(|&byte| is_sign(byte)) {
        let both = (answer.word.number, answer.word.round);
        laws.push((both == (0, 0), "all zeros reads as (0,0)"));
    }
    laws
}

fn laws_of_13(text: &[u8], place: usize) -> Vec<Law> {
    let before = &text[..place.min(text.len())];
    vec![
        (
            place < text.len() && !is_digit(text[place]),
            "at 13 the byte at the place is none of the three",
        ),
        (
            all_digits(before),
            "at 13 every byte before the place is one of the three",
        ),
    ]
}

fn laws_of_9(text: &[u8], place: usize) -> Vec<Law> {
    let within = place < text.len();
    let mut earlier = 0..place.min(text.len());
    vec![
        (all_digits(text), "at 9 every byte is one of the three"),
        (
            within && is_sign(text[place]),
            "at 9 the byte at the place is a sign",
        ),
        (
            within && sign_before(text, place) == Some(text[place]),
            "at 9 the nearest sign before the place is the same",
        ),
        (
            !earlier.any(|other| repeats(text, other)),
            "at 9 no earlier place is so",
        ),
    ]
}

fn is_sign(byte: u8) -> bool {
    byte == b'+' || byte == b'-'
}

/// One of the three.
fn is_digit(byte: u8) -> bool {
    is_sign(byte) || byte == b'0'
}

fn all_digits(text: &[u8]) -> bool {
    text.iter().all(|&byte| is_digit(byte))
}

/// The nearest sign to the left of the place.
fn sign_before(text: &[u8], place: usize) -> Option<u8> {
    let mut leftward = text[..place].iter().rev().copied();
    leftward.find(|&byte| is_sign(byte))
}

/// A sign, and the nearest sign before it is the same.
fn repeats(text: &[u8], place: usize) -> bool {
    is_sign(text[place]) && sign_before(text, place) == Some(text[place])
}
