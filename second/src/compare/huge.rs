//! Lengths and rooms past 2^32: a program that keeps them in 32 bits takes
//! 2^32 + 2 for 2. The memory is asked for as zeros and hardly touched, so it
//! costs no more than its addresses; where even these cannot be had, the part
//! says so and counts as neither passed nor failed.

use super::case::Operand;
use super::fall;
use super::job::Job;
use super::library::*;
use super::operations::{FILE_READ, FILE_WRITE, LISTING_CALL, TEXT_READ, TEXT_WRITE};
use super::reading_case::{self, ReadingCase};
use super::tally::Record;
use crate::model::block_file::{self, Block};
use crate::model::kinds::ROUND_BIT;
use crate::model::layout::{FileNumber, HEAD_BYTES};
use crate::model::{digit_text, listing};
use std::alloc::{alloc_zeroed, dealloc, Layout};
use std::fmt::Debug;

const PAST: usize = 1 << 32;
const SIZE: usize = PAST + 4096;
/// Everything that may be written lies in these first bytes.
const HEAD: usize = 4096;

pub fn jobs() -> Vec<Job> {
    vec![Job::new("lengths and rooms past 2^32", |record| {
        let memory = unsafe { alloc_zeroed(layout()) };
        if memory.is_null() {
            // What is not run has shown nothing, so it does not pass.
            record.check(false, || {
                "lengths past 2^32: no addresses to be had".to_string()
            });
            return;
        }
        fall::about_to_call("a call with a length past 2^32", None, &[]);
        all(&mut Huge { memory }, record);
        fall::back();
        unsafe { dealloc(memory, layout()) };
    })]
}

/// A greater alignment would make the zeros be written one by one.
fn layout() -> Layout {
    Layout::from_size_align(SIZE, 8).expect("a size and a power of two")
}

struct Huge {
    memory: *mut u8,
}

impl Huge {
    fn slice(&mut self, length: usize) -> &mut [u8] {
        unsafe { std::slice::from_raw_parts_mut(self.memory, length) }
    }

    /// The content at the start, zeros after it.
    fn hold(&mut self, content: &[u8]) {
        self.slice(HEAD).fill(0);
        self.slice(content.len()).copy_from_slice(content);
    }

    fn head(&mut self) -> Vec<u8> {
        self.slice(HEAD).to_vec()
    }
}

fn same<A: Debug + PartialEq>(
    what: &str,
    library: (A, Vec<u8>),
    second: (A, Vec<u8>),
    record: &mut Record,
) {
    record.check(library == second, || {
        let heads = if library.1 == second.1 {
            "alike"
        } else {
            "unlike"
        };
        format!(
            "{}\n  library: {:?}\n  second:  {:?}\n  the first bytes are {}",
            what, library.0, second.0, heads
        )
    });
}

fn all(huge: &mut Huge, record: &mut Record) {
    text_length(huge, record);
    text_room(huge, record);
    for file in EMPTY_FILES {
        file_length(huge, file, record);
        listed_length(huge, file, record);
    }
    for file in TWO_RECORDS {
        file_rooms(huge, file, record);
        listed_room(huge, file, record);
    }
    for width in [5, 40] {
        unlike_lengths(huge, width, record);
        written_room(huge, width, record);
    }
    read_lengths(huge, record);
    // The bytes past the head, looked at once for all calls.
    let changed = huge.slice(SIZE)[HEAD..].iter().position(|byte| *byte != 0);
    record.check(changed.is_none(), || {
        format!("a byte far past the head: {:?}", changed)
    });
}

const WORD: Operand = Operand {
    number: -7,
    round: 1,
    width: 5,
    unit: 3,
};

fn text_length(huge: &mut Huge, record: &mut Record) {
    huge.hold(b"0+");
    let answer = unsafe { frost_digit_text_read(huge.memory, PAST + 2, 0) };
    record.answer(TEXT_READ, answer.refusal);
    let library = answer.model();
    let after = huge.head();
    huge.hold(b"0+");
    let second = digit_text::read(huge.slice(PAST + 2), 0);
    same(
        "frost_digit_text_read, 2^32 + 2 bytes",
        (library, after),
        (second, huge.head()),
        record,
    );
}

fn text_room(huge: &mut Huge, record: &mut Record) {
    huge.hold(b"some bytes");
    let library =
        unsafe { frost_digit_text_write(WORD.for_library(), huge.memory, PAST + 1) }.model();
    record.answer(TEXT_WRITE, library.refusal);
    let after = huge.head();
    huge.hold(b"some bytes");
    let second = digit_text::write(WORD.word(), huge.slice(PAST + 1));
    same(
        "frost_digit_text_write, room 2^32 + 1",
        (library, after),
        (second, huge.head()),
        record,
    );
}

/// A good file of each version, of width 5 and 40, with no record and with two.
const EMPTY_FILES: [&[u8]; 2] = [
    b"RNB\x01\x00\x01\x05\x00\x00\x00\x00\x00",
    b"RNB\x02\x00\x01\x28\x00\x00\x00\x00\x00",
];
const TWO_RECORDS: [&[u8]; 2] = [
    b"RNB\x01\x00\x01\x05\x00\x02\x00\x00\x00\x07\0\0\0\x01\xFF\xFF\xFF\xFF\0",
    b"RNB\x02\x00\x01\x28\x00\x02\x00\x00\x00\x07\0\0\0\x7F\0\x01\xFF\xFF\xFF\xFF\xFF\xFF\0",
];

fn file_length(huge: &mut Huge, file: &[u8], record: &mut Record) {
    huge.hold(file);
    let mut numbers = [9; 4];
    let mut rounds = [9; 4];
    let answer = unsafe {
        let (n, r) = (numbers.as_mut_ptr(), rounds.as_mut_ptr());
        frost_file_read(huge.memory, PAST + HEAD_BYTES, n, 4, r, 4)
    };
    record.answer(FILE_READ, answer.refusal);
    let after = huge.head();
    huge.hold(file);
    let second = block_file::read(huge.slice(PAST + HEAD_BYTES), &mut [9; 4], &mut [9; 4]);
    let library = (answer.model(), numbers, rounds);
    let second = (second, [9; 4], [9; 4]);
    same(
        "frost_file_read, 2^32 + 12 bytes",
        (library, after),
        (second, huge.head()),
        record,
    );
}

fn file_rooms(huge: &mut Huge, file: &[u8], record: &mut Record) {
    huge.hold(b"some bytes");
    let mut numbers = [9; 4];
    let answer = unsafe {
        let n = numbers.as_mut_ptr();
        frost_file_read(file.as_ptr(), file.len(), n, 4, huge.memory, PAST + 1)
    };
    record.answer(FILE_READ, answer.refusal);
    let after = huge.head();
    huge.hold(b"some bytes");
    let mut second_numbers = [9; 4];
    let second = block_file::read(file, &mut second_numbers, huge.slice(PAST + 1));
    let library = (answer.model(), numbers);
    let second = (second, second_numbers);
    same(
        "frost_file_read, room 2^32 + 1",
        (library, after),
        (second, huge.head()),
        record,
    );
}

/// What the calls below write: round-bit words of a width and unit 0.
fn block<'a>(width: u32, numbers: &'a [FileNumber], rounds: &'a [u8]) -> Block<'a> {
    Block {
        kind: ROUND_BIT.byte,
        width: width as i128,
        unit: 0,
        numbers,
        rounds,
    }
}

fn write(
    width: u32,
    numbers: &[FileNumber],
    rounds: (*const u8, usize),
    out: (*mut u8, usize),
) -> FrostWritten {
    let block = block(width, numbers, &[]);
    unsafe {
        frost_file_write(
            block.kind as u32,
            block.width as u32,
            block.unit as i32,
            numbers.as_ptr(),
            numbers.len(),
            rounds.0,
            rounds.1,
            out.0,
            out.1,
        )
    }
}

fn unlike_lengths(huge: &mut Huge, width: u32, record: &mut Record) {
    huge.hold(&[1]);
    let mut out = [9; 64];
    let library = write(width, &[5], (huge.memory, PAST + 1), (out.as_mut_ptr(), 64)).model();
    record.answer(FILE_WRITE, library.refusal);
    let after = huge.head();
    huge.hold(&[1]);
    let mut second_out = [9; 64];
    let second = block_file::write(block(width, &[5], huge.slice(PAST + 1)), &mut second_out);
    let library = ((library, out), after);
    let second = ((second, second_out), huge.head());
    same(
        "frost_file_write, 2^32 + 1 round bits",
        library,
        second,
        record,
    );
}

fn written_room(huge: &mut Huge, width: u32, record: &mut Record) {
    huge.hold(b"some bytes");
    let library = write(width, &[5], ([1].as_ptr(), 1), (huge.memory, PAST + 3)).model();
    record.answer(FILE_WRITE, library.refusal);
    let after = huge.head();
    huge.hold(b"some bytes");
    let second = block_file::write(block(width, &[5], &[1]), huge.slice(PAST + 3));
    same(
        "frost_file_write, room 2^32 + 3",
        (library, after),
        (second, huge.head()),
        record,
    );
}

fn listed_length(huge: &mut Huge, file: &[u8], record: &mut Record) {
    huge.hold(file);
    let mut out = [9; 64];
    let answer =
        unsafe { frost_listing_text(huge.memory, PAST + HEAD_BYTES, out.as_mut_ptr(), 64) };
    let library = answer.model();
    record.answer(LISTING_CALL, library.refusal);
    let after = huge.head();
    huge.hold(file);
    let mut second_out = [9; 64];
    let second = listing::write(huge.slice(PAST + HEAD_BYTES), &mut second_out);
    let library = ((library, out), after);
    let second = ((second, second_out), huge.head());
    same(
        "frost_listing_text, 2^32 + 12 bytes",
        library,
        second,
        record,
    );
}

fn listed_room(huge: &mut Huge, file: &[u8], record: &mut Record) {
    huge.hold(b"some bytes");
    let answer = unsafe { frost_listing_text(file.as_ptr(), file.len(), huge.memory, PAST + 4) };
    let library = answer.model();
    record.answer(LISTING_CALL, library.refusal);
    let after = huge.head();
    huge.hold(b"some bytes");
    let second = listing::write(file, huge.slice(PAST + 4));
    same(
        "frost_listing_text, room 2^32 + 4",
        (library, after),
        (second, huge.head()),
        record,
    );
}

/// The call tells by itself what it fell on; so it comes last.
fn read_lengths(huge: &mut Huge, record: &mut Record) {
    huge.hold(&[1]);
    let block = block(5, &[5], huge.slice(PAST + 1));
    let case = ReadingCase {
        kind: block.kind as u32,
        width: block.width as u32,
        numbers: block.numbers,
        rounds: block.rounds,
        first: 0,
        length: 1,
    };
    reading_case::compare(&case, record);
}
