//! One block file, read by both programs, with every byte of the buffers.

use super::blocks::file_text;
use super::fall;
use super::lent::Lent;
use super::library::*;
use super::limits::MOST_RECORDS;
use super::operations::{FILE_READ, FILE_READ_OF};
use super::tally::Record;
use crate::model::block_file::{self, Head};
use crate::model::layout::{FileNumber, HEAD_BYTES, KIND_AT, LAYOUTS, VERSION_AT};

/// What the library answered, and the buffers that it was lent.
pub struct FileRead {
    pub head: Head,
    pub numbers: Lent<FileNumber>,
    pub rounds: Lent<u8>,
}

/// The place among the layouts of the version that a file says it has, if it is
/// long enough to say one and there is such a version.
pub fn version_of(file: &[u8]) -> Option<usize> {
    let said = file.get(..HEAD_BYTES)?.get(VERSION_AT..KIND_AT)?;
    LAYOUTS
        .iter()
        .position(|layout| said == layout.version.to_le_bytes())
}

pub fn compare_read(
    file: &[u8],
    numbers_room: usize,
    rounds_room: usize,
    record: &mut Record,
) -> FileRead {
    let salt = record.cases;
    let mut lent = Lent::holding_bytes(file, salt);
    let before = lent.clone();
    let mut numbers = Lent::numbers(numbers_room, salt);
    let mut rounds = Lent::bytes(rounds_room, salt);
    let mut second_numbers = numbers.clone();
    let mut second_rounds = rounds.clone();
    fall::about_to_call("frost_file_read", None, file);
    let answer = unsafe {
        frost_file_read(
            lent.pointer(),
            file.len(),
            numbers.pointer(),
            numbers_room,
            rounds.pointer(),
            rounds_room,
        )
    };
    fall::back();
    let library = answer.model();
    let second = block_file::read(file, second_numbers.lend(), second_rounds.lend());
    record.answer(FILE_READ, library.refusal);
    if let Some(version) = version_of(file) {
        record.answer(FILE_READ_OF[version], library.refusal);
    }
    let buffers = numbers == second_numbers && rounds == second_rounds && lent == before;
    record.check(library == second && buffers, || {
        format!(
            "frost_file_read\n  case:    {}, rooms {} and {}\n  library: {:?}\n  second:  {:?}\n  \
             first that differs (library, second): number {}; round bit {}; byte of the file {}",
            file_text(file),
            numbers_room,
            rounds_room,
            library,
            second,
            numbers.first_difference(&second_numbers),
            rounds.first_difference(&second_rounds),
            lent.first_difference(&before)
        )
    });
    FileRead {
        head: library,
        numbers,
        rounds,
    }
}

/// Reads into enough room, and holds the library's refusal against one that is
/// known without either program.
pub fn expect_read(what: &str, file: &[u8], refusal: u32, record: &mut Record) -> FileRead {
    // No file has as many records as bytes.
    let room = file.len().min(MOST_RECORDS);
    let read = compare_read(file, room, room, record);
    record.check(read.head.refusal == refusal, || {
        format!(
            "{}\n  case:    {}\n  library: {:?}\n  must be: {}",
            what,
            file_text(file),
            read.head,
            refusal
        )
    });
    read
}
