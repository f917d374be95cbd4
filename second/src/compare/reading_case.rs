//! What a reading is asked of, and its call in both programs on one case.

use super::fall;
use super::library::{frost_reading_of_run, OfModel};
use super::operations::READING_OF_RUN;
use super::tally::Record;
use crate::model::layout::FileNumber;
use crate::model::reading::{self, ReadingAnswer, Run};
use std::fmt::Debug;

/// More numbers and round bits of a block than this are not printed.
const PRINTED_RECORDS: usize = 12;

/// A block and a run of it. The records are lent: many cases share them.
#[derive(Clone, Copy)]
pub struct ReadingCase<'a> {
    pub kind: u32,
    pub width: u32,
    pub numbers: &'a [FileNumber],
    pub rounds: &'a [u8],
    pub first: usize,
    pub length: usize,
}

impl<'a> ReadingCase<'a> {
    /// Another run of the same block.
    pub fn run(self, first: usize, length: usize) -> ReadingCase<'a> {
        ReadingCase {
            first,
            length,
            ..self
        }
    }

    /// Only so many of the numbers and so many of the round bits.
    pub fn of_lengths(self, numbers: usize, rounds: usize) -> ReadingCase<'a> {
        ReadingCase {
            numbers: &self.numbers[..numbers],
            rounds: &self.rounds[..rounds],
            ..self
        }
    }

    fn for_second(&self) -> Run<'a> {
        Run {
            kind: self.kind as i128,
            width: self.width as i128,
            numbers: self.numbers,
            rounds: self.rounds,
            first: self.first as i128,
            length: self.length as i128,
        }
    }

    pub fn describe(&self) -> String {
        format!(
            "kind {}, width {}, first {}, length {}, {} numbers, {}, {} round bits, {}",
            self.kind,
            self.width,
            self.first,
            self.length,
            self.numbers.len(),
            some_of(self.numbers, self.first),
            self.rounds.len(),
            some_of(self.rounds, self.first)
        )
    }
}

/// From the record before the run on, or from the start if all have room.
fn some_of<T: Debug>(all: &[T], first: usize) -> String {
    let last_start = all.len().saturating_sub(PRINTED_RECORDS);
    let start = first.saturating_sub(1).min(last_start);
    let shown = &all[start..all.len().min(start + PRINTED_RECORDS)];
    format!("from {} on {:?}", start, shown)
}

/// Each number as its bits and as what they are worth.
pub fn described(answer: ReadingAnswer) -> String {
    let number = |bits: u32| format!("{:08X} ({:?})", bits, f32::from_bits(bits));
    format!(
        "refusal {}, lowest {}, highest {}, first {}",
        answer.refusal,
        number(answer.reading.lowest),
        number(answer.reading.highest),
        number(answer.reading.first)
    )
}

/// Calls both programs and compares all that they answer, bit by bit. The
/// library's answer is given back, for checks of more than one call.
pub fn compare(case: &ReadingCase, record: &mut Record) -> ReadingAnswer {
    fall::about_to_call_reading("frost_reading_of_run", case);
    let answer = unsafe {
        frost_reading_of_run(
            case.kind,
            case.width,
            case.numbers.as_ptr(),
            case.numbers.len(),
            case.rounds.as_ptr(),
            case.rounds.len(),
            case.first,
            case.length,
        )
    };
    fall::back();
    let library = answer.model();
    let second = reading::of_run(case.for_second());
    record.answer(READING_OF_RUN, library.refusal);
    record.check(library == second, || {
        format!(
            "frost_reading_of_run\n  case:    {}\n  library: {}\n  second:  {}",
            case.describe(),
            described(library),
            described(second)
        )
    });
    library
}

/// Compares, and holds the library's answer against another that it must be.
pub fn expect(
    what: &str,
    case: &ReadingCase,
    expected: ReadingAnswer,
    record: &mut Record,
) -> ReadingAnswer {
    let library = compare(case, record);
    record.check(library == expected, || {
        format!(
            "{}\n  case:    {}\n  library: {}\n  must be: {}",
            what,
            case.describe(),
            described(library),
            described(expected)
        )
    });
    library
}
