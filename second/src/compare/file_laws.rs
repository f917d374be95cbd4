//! The laws of block files that documents 01 and 02, Ask 7 state: which files and
//! blocks are refused, read after write, write after read, and that the width
//! decides the version. They are worked out here from the bytes; the second
//! program is not asked. So the numbers stand here as they stand in the documents,
//! and not under the model's names.

use super::blocks::file_text;
use super::file_read_case::{compare_read, FileRead};
use super::file_write_case::{compare_write, ToWrite};
use super::tally::Record;

/// The version that a width is written in, and the bytes of its numbers.
fn version_for(width: u32) -> Option<(u8, usize)> {
    match width {
        2..=32 => Some((1, 4)),
        33..=48 => Some((2, 6)),
        _ => None,
    }
}

/// A number as the bytes of a file spell it: its digits are pushed to the upper
/// end of 64, where the first of them is the sign.
fn spelt(bytes: &[u8]) -> i64 {
    let mut digits = [0; 8];
    digits[8 - bytes.len()..].copy_from_slice(bytes);
    i64::from_le_bytes(digits) >> (64 - 8 * bytes.len())
}

pub fn fits(number: i64, width: u32) -> bool {
    let half = 1 << (width - 1);
    (-half..half).contains(&number)
}

pub fn is_good_record(kind: u32, width: u32, number: i64, round: u8) -> bool {
    fits(number, width) && round <= if kind == 1 { 1 } else { 0 }
}

/// What reading a file into two buffers of this room is refused by.
pub fn refusal_of_file(file: &[u8], room: usize) -> u32 {
    if file.len() < 12 {
        return 12;
    }
    let (number_bytes, widths) = match &file[..5] {
        b"RNB\x01\x00" => (4, 2..=32),
        b"RNB\x02\x00" => (6, 33..=48),
        _ => return 11,
    };
    let (kind, width) = (file[5] as u32, file[6] as u32);
    let count = u32::from_le_bytes([file[8], file[9], file[10], file[11]]) as usize;
    if kind > 2 || count > 8_000 || file.len() != 12 + (number_bytes + 1) * count {
        return 12;
    }
    if !widths.contains(&width) {
        return 1;
    }
    if file[7] == 0x80 {
        return 2;
    }
    let mut records = file[12..].chunks(number_bytes + 1);
    let is_good = |record: &[u8]| {
        let number = spelt(&record[..number_bytes]);
        is_good_record(kind, width, number, record[number_bytes])
    };
    if !records.all(is_good) {
        return 3;
    }
    if room < count {
        10
    } else {
        0
    }
}

/// What writing a block into a buffer of this room is refused by.
pub fn refusal_of_block(block: &ToWrite, room: usize) -> u32 {
    let count = block.numbers.len();
    if block.kind > 2 || count > 8_000 || count != block.rounds.len() {
        return 12;
    }
    let number_bytes = match version_for(block.width) {
        Some((_, number_bytes)) => number_bytes,
        None => return 1,
    };
    if block.unit < -127 || block.unit > 127 {
        return 2;
    }
    let mut records = block.numbers.iter().zip(&block.rounds);
    if !records.all(|(&number, &round)| is_good_record(block.kind, block.width, number, round)) {
        return 3;
    }
    if room < 12 + (number_bytes + 1) * count {
        10
    } else {
        0
    }
}

/// Counts a law; what broke it is only described then.
fn keep(kept: bool, law: &str, what: impl FnOnce() -> String, record: &mut Record) {
    record.check(kept, || {
        format!("a law of files: {}\n  case:    {}", law, what())
    });
}

/// Reads a file, and holds the library's answer to the laws.
pub fn hold_file(file: &[u8], room: usize, record: &mut Record) -> FileRead {
    let read = compare_read(file, room, room, record);
    let text = || format!("{}, rooms {}", file_text(file), room);
    let expected = refusal_of_file(file, room);
    let law = "12, 11, 12, 1, 2, 3, 10, exactly where stated";
    keep(read.head.refusal == expected, law, text, record);
    if (read.head.refusal, expected) == (0, 0) {
        let block = block_of(&read);
        let law = "write after read gives the file";
        let again = compare_write(&block, file.len(), record);
        keep(again.file() == file, law, text, record);
    }
    read
}

/// What was read, to be written again.
pub fn block_of(read: &FileRead) -> ToWrite {
    let count = (read.head.count as usize).min(read.numbers.room());
    ToWrite {
        kind: read.head.kind as u32,
        width: read.head.width as u32,
        unit: read.head.unit as i32,
        numbers: read.numbers.content()[..count].to_vec(),
        rounds: read.rounds.content()[..count].to_vec(),
    }
}

/// Writes a block, and holds the library's answer to the laws. The file is given
/// back, of no bytes if there is none.
pub fn hold_block(block: &ToWrite, room: usize, record: &mut Record) -> Vec<u8> {
    let written = compare_write(block, room, record);
    let text = || format!("{}, room {}", block.text(), room);
    let expected = refusal_of_block(block, room);
    let law = "12, 1, 2, 3, 10, exactly where stated";
    keep(written.answer.refusal == expected, law, text, record);
    let file = written.file().to_vec();
    if (written.answer.refusal, expected) == (0, 0) {
        let law = "the width decides the version, and the version the length";
        keep(has_its_version(&file, block), law, text, record);
        let count = block.numbers.len();
        let read = compare_read(&file, count, count, record);
        let given_back = read.head.refusal == 0 && same(&block_of(&read), block);
        let law = "read after write gives the block";
        keep(given_back, law, text, record);
    }
    file
}

fn has_its_version(file: &[u8], block: &ToWrite) -> bool {
    match version_for(block.width) {
        Some((version, number_bytes)) => {
            file.len() == 12 + (number_bytes + 1) * block.numbers.len()
                && file[3..5] == [version, 0]
        }
        None => false,
    }
}

/// Whether two blocks are one.
pub fn same(one: &ToWrite, other: &ToWrite) -> bool {
    let head = |block: &ToWrite| (block.kind, block.width, block.unit);
    head(one) == head(other) && one.numbers == other.numbers && one.rounds == other.rounds
}
