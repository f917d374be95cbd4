//! Readings with several causes at once: every set of them, each with the one
//! that document 02, Ask 4 names first.

use super::limits::*;
use super::random::Random;
use super::reading_case::{expect, ReadingCase};
use super::reading_laws::{hold, refused};
use super::reading_records::{bad_numbers, bad_rounds, spoilt, Entry, Records};
use super::tally::Record;
use crate::model::kinds::{Kind, KINDS};

/// How often each set is made anew.
const DRAWS: u64 = 60;

/// What can be wrong, one bit for each, in the order of the ask.
const KIND: u32 = 1;
const UNLIKE: u32 = 2;
const WIDTH: u32 = 4;
const EMPTY: u32 = 8;
const PAST: u32 = 16;
const NUMBER: u32 = 32;
const ROUND: u32 = 64;
/// Bad records just before the run and just behind it, which is no cause.
const OUTSIDE: u32 = 128;
const ALL_CAUSES: u32 = 256;

const BAD_WIDTHS: [u32; 10] = [
    0,
    LEAST_WIDTH - 1,
    MOST_READING_WIDTH + 1,
    FIRST_LAYOUT.most_width as u32,
    MOST_FILE_WIDTH as u32,
    MOST_WIDTH,
    MOST_WIDTH + 1,
    256 + MOST_READING_WIDTH,
    1 << 31,
    u32::MAX,
];

const BAD_KINDS: [u32; 5] = [NO_KIND as u32, NO_KIND as u32 + 1, 256, 1 << 31, u32::MAX];

/// In this order, whatever else is wrong.
fn named_first(causes: u32) -> u32 {
    let has = |cause: u32| causes & cause != 0;
    if has(KIND | UNLIKE) {
        12
    } else if has(WIDTH) {
        1
    } else if has(EMPTY | PAST) {
        14
    } else if has(NUMBER | ROUND) {
        3
    } else {
        0
    }
}

pub fn several_causes(random: &mut Random, record: &mut Record) {
    for causes in 0..ALL_CAUSES {
        for _ in 0..DRAWS {
            with_causes(random, causes, record);
        }
    }
}

fn with_causes(random: &mut Random, causes: u32, record: &mut Record) {
    let kind = random.one_of(KINDS);
    let width = LEAST_WIDTH + random.below(READING_WIDTHS) as u32;
    let count = 5 + random.below(6) as usize;
    let mut records = Records::good(random, kind, width, count);
    // At least one record is before the run, and one behind it.
    let first = 1 + random.below(count as u64 - 3) as usize;
    let end = first + 1 + random.below((count - 1 - first) as u64) as usize;
    for (cause, place) in [
        (OUTSIDE, first - 1),
        (OUTSIDE, end),
        (NUMBER, first + random.below((end - first) as u64) as usize),
        (ROUND, first + random.below((end - first) as u64) as usize),
    ] {
        if causes & cause != 0 {
            let entry = spoil_record(random, kind, width, records.get(place), cause);
            records.put(place, entry);
        }
    }
    let good = records.whole(kind.byte as u32, width);
    let case = spoil_rest(random, causes, good.run(first, end - first));
    match named_first(causes) {
        0 => hold(&case, record),
        refusal => expect("several causes at once", &case, refused(refusal), record),
    };
}

fn spoil_record(random: &mut Random, kind: Kind, width: u32, good: Entry, cause: u32) -> Entry {
    match cause {
        NUMBER => (random.one_of(&bad_numbers(kind, width)), good.1),
        ROUND => (good.0, random.one_of(&bad_rounds(kind))),
        _ => random.one_of(&spoilt(kind, width, good)),
    }
}

/// The causes that do not stand in a record.
fn spoil_rest<'a>(random: &mut Random, causes: u32, good: ReadingCase<'a>) -> ReadingCase<'a> {
    let has = |cause: u32| causes & cause != 0;
    let (first, count) = (good.first, good.numbers.len());
    let mut case = match (has(EMPTY), has(PAST)) {
        (false, false) => good,
        (true, false) => good.run(first, 0),
        (false, true) => past(random, good),
        (true, true) => good.run(past(random, good).length.max(count + 1), 0),
    };
    if has(WIDTH) {
        case.width = random.one_of(&BAD_WIDTHS);
    }
    if has(KIND) {
        case.kind = random.one_of(&BAD_KINDS);
    }
    if has(UNLIKE) {
        let fewer = random.below(count as u64) as usize;
        let (numbers, rounds) = random.one_of(&[(count, fewer), (fewer, count)]);
        case = case.of_lengths(numbers, rounds);
    }
    case
}

/// A run that passes the end, by one or by much; in 64 digits some end at 0 or
/// within the block.
fn past<'a>(random: &mut Random, good: ReadingCase<'a>) -> ReadingCase<'a> {
    let (first, count) = (good.first, good.numbers.len());
    let to_2_to_64 = usize::MAX - first + 1;
    let within = random.below(count as u64 + 1) as usize;
    let length = count - first + 1;
    let (first, length) = random.one_of(&[
        (first, length),
        (first, length + within),
        (first, usize::MAX),
        (first, to_2_to_64),
        (first, to_2_to_64 + within.min(first - 1)),
        (first, 1 << 63),
        (count, 1),
        (count + 1, 1 + within),
        (usize::MAX, 1 + within),
        (1 << 63, 1 << 63),
    ]);
    good.run(first, length)
}
