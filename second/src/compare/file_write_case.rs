//! One block, written by both programs as a file, with every byte of the buffers.

use super::blocks::Block;
use super::fall;
use super::lent::Lent;
use super::library::*;
use super::limits::LAST_LAYOUT;
use super::operations::{FILE_WRITE, FILE_WRITE_OF};
use super::tally::Record;
use crate::model::block_file;
use crate::model::layout::{layout_for, FileNumber, LAYOUTS};
use crate::model::words::Written;

#[derive(Clone, Debug)]
pub struct ToWrite {
    pub kind: u32,
    pub width: u32,
    pub unit: i32,
    pub numbers: Vec<FileNumber>,
    pub rounds: Vec<u8>,
}

impl ToWrite {
    pub fn of(block: Block) -> ToWrite {
        ToWrite {
            kind: block.kind as u32,
            width: block.width as u32,
            unit: block.unit as i32,
            numbers: block.records.iter().map(|record| record.0).collect(),
            rounds: block.records.iter().map(|record| record.1).collect(),
        }
    }

    /// What a good one takes; a width that no file has would take most.
    pub fn file_length(&self) -> usize {
        let layout = layout_for(self.width as i128).unwrap_or(LAST_LAYOUT);
        layout.file_bytes(self.numbers.len())
    }

    /// The place among the layouts of the one that has this width.
    fn version(&self) -> Option<usize> {
        LAYOUTS
            .iter()
            .position(|layout| layout.width_is_good(self.width as i128))
    }

    fn block(&self) -> block_file::Block<'_> {
        block_file::Block {
            kind: self.kind as i128,
            width: self.width as i128,
            unit: self.unit as i128,
            numbers: &self.numbers,
            rounds: &self.rounds,
        }
    }

    pub fn text(&self) -> String {
        let shown_numbers = &self.numbers[..self.numbers.len().min(12)];
        let shown_rounds = &self.rounds[..self.rounds.len().min(12)];
        format!(
            "kind {}, width {}, unit {}, {} numbers {:?}, {} round bits {:?}",
            self.kind,
            self.width,
            self.unit,
            self.numbers.len(),
            shown_numbers,
            self.rounds.len(),
            shown_rounds
        )
    }
}

/// What the library answered, and the buffer that it was lent.
pub struct FileWritten {
    pub answer: Written,
    pub out: Lent<u8>,
}

impl FileWritten {
    /// The bytes that the library says it wrote, never more than it was lent.
    pub fn file(&self) -> &[u8] {
        let room = self.out.room();
        &self.out.content()[..(self.answer.bytes as usize).min(room)]
    }
}

pub fn compare_write(input: &ToWrite, room: usize, record: &mut Record) -> FileWritten {
    let salt = record.cases;
    let mut numbers = Lent::holding_numbers(&input.numbers, salt);
    let mut rounds = Lent::holding_bytes(&input.rounds, salt);
    let before = (numbers.clone(), rounds.clone());
    let mut out = Lent::bytes(room, salt);
    let mut second_out = out.clone();
    fall::about_to_call("frost_file_write", None, &input.rounds);
    let answer = unsafe {
        frost_file_write(
            input.kind,
            input.width,
            input.unit,
            numbers.pointer(),
            numbers.room(),
            rounds.pointer(),
            rounds.room(),
            out.pointer(),
            room,
        )
    };
    fall::back();
    let library = answer.model();
    let second = block_file::write(input.block(), second_out.lend());
    record.answer(FILE_WRITE, library.refusal);
    if let Some(version) = input.version() {
        record.answer(FILE_WRITE_OF[version], library.refusal);
    }
    let buffers = out == second_out && (&numbers, &rounds) == (&before.0, &before.1);
    record.check(library == second && buffers, || {
        format!(
            "frost_file_write\n  case:    {}, room {}\n  library: {:?}\n  second:  {:?}\n  \
             first that differs (library, second): byte written {}; number {}; round bit {}",
            input.text(),
            room,
            library,
            second,
            out.first_difference(&second_out),
            numbers.first_difference(&before.0),
            rounds.first_difference(&before.1)
        )
    });
    FileWritten {
        answer: library,
        out,
    }
}

/// Writes into enough room, and holds the library's refusal against one that is
/// known without either program.
pub fn expect_write(what: &str, input: &ToWrite, refusal: u32, record: &mut Record) -> FileWritten {
    let written = compare_write(input, input.file_length() + 2, record);
    record.check(written.answer.refusal == refusal, || {
        format!(
            "{}\n  case:    {}\n  library: {:?}\n  must be: {}",
            what,
            input.text(),
            written.answer,
            refusal
        )
    });
    written
}
