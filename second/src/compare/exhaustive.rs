//! All words of small widths, all pairs, all depths, and all short texts.

use super::call::compare_all;
use super::case::{Operand, Takes, ROUND_BIT_WORD};
use super::job::Job;
use super::limits::*;
use super::operations::OPERATIONS;
use super::tally::Record;
use super::texts;
use crate::model::causes::DONE;

/// Unit 0, and units so near the ends that small depths pass them.
const NEAR_UNITS: [i32; 9] = [
    LEAST_UNIT,
    LEAST_UNIT + 1,
    LEAST_UNIT + 3,
    LEAST_UNIT + 6,
    0,
    MOST_UNIT - 6,
    MOST_UNIT - 3,
    MOST_UNIT - 1,
    MOST_UNIT,
];

/// For pairs: two of them add up to an end, or pass it by one.
const PAIR_UNITS: [i32; 6] = [
    LEAST_UNIT,
    -MIDDLE_UNIT,
    0,
    MIDDLE_UNIT - 1,
    MIDDLE_UNIT,
    MOST_UNIT - 1,
];

const WIDEST: u32 = 6;
const WIDEST_OF_PAIRS: u32 = 5;

const HUGE_DEPTHS: [u64; 5] = [
    MOST_WIDTH as u64,
    MOST_WIDTH as u64 + 1,
    1 << 32,
    1 << 63,
    u64::MAX,
];

/// Bytes that are no digits: neighbours of `+`, `0`, `-`, and some others.
const STRANGE: [u8; 9] = [b'1', b'*', b',', b'.', b'/', 0, 0x80, b'+' + 0x80, 0xFF];

pub fn jobs() -> Vec<Job> {
    let mut jobs = Vec::new();
    for row in 0..OPERATIONS.len() {
        let name = format!("exhaustive, {}", OPERATIONS[row].name);
        jobs.push(Job::new(name, move |record| exhaust(row, record)));
    }
    jobs.push(Job::new("exhaustive, frost_digit_text_write", write_texts));
    jobs.push(Job::new("exhaustive, frost_digit_text_read", read_texts));
    jobs.push(Job::new("exhaustive, texts read back", read_back));
    jobs
}

fn exhaust(row: usize, record: &mut Record) {
    let takes = OPERATIONS[row].takes;
    let all = if takes.second {
        words(takes, WIDEST_OF_PAIRS, &PAIR_UNITS)
    } else {
        words(takes, WIDEST, &NEAR_UNITS)
    };
    compare_all(row, &all, depths, &all, record);
}

/// All words of the least width to the widest.
fn words(takes: Takes, widest: u32, units: &[i32]) -> Vec<Operand> {
    let mut words = Vec::new();
    for width in LEAST_WIDTH..=widest {
        let half = if takes.number { 1i64 << (width - 1) } else { 0 };
        let last_round = if takes.round { 1 } else { 0 };
        for number in -half..=(half - 1).max(0) {
            for round in 0..=last_round {
                for &unit in units {
                    words.push(Operand {
                        number,
                        round,
                        width,
                        unit,
                    });
                }
            }
        }
    }
    words
}

fn depths(width: u32) -> Vec<u64> {
    let mut depths: Vec<u64> = (0..=width as u64 + 2).collect();
    depths.extend(HUGE_DEPTHS);
    depths
}

fn write_texts(record: &mut Record) {
    for word in words(ROUND_BIT_WORD, WIDEST, &NEAR_UNITS) {
        let n = word.width as usize;
        for room in [0, 1, n - 1, n, n + 1, n + 20] {
            texts::compare_write(word, room, record);
        }
    }
}

fn read_texts(record: &mut Record) {
    for strange in STRANGE {
        for length in 0..=WIDEST {
            for text in lists_over(&[b'+', b'0', b'-', strange], length) {
                for unit in [0, LEAST_UNIT, MOST_UNIT, LEAST_UNIT - 1, MOST_UNIT + 1] {
                    texts::compare_read(&text, unit, record);
                }
            }
        }
    }
    // Every byte there is, in each of two places.
    for first in 0..=255 {
        for second in 0..=255 {
            texts::compare_read(&[first, second], 0, record);
        }
    }
}

/// All lists of one length over these: texts over letters, blocks over records.
pub fn lists_over<T: Copy>(these: &[T], length: u32) -> Vec<Vec<T>> {
    let count = these.len();
    let one = |index: usize| -> Vec<T> {
        (0..length)
            .map(|place| these[index / count.pow(place) % count])
            .collect()
    };
    (0..count.pow(length)).map(one).collect()
}

/// The library's own texts, read by it: every word comes back as itself, but
/// (-1,1) as (0,0).
fn read_back(record: &mut Record) {
    for word in words(ROUND_BIT_WORD, WIDEST, &[0, MOST_UNIT]) {
        let text = texts::compare_write(word, word.width as usize, record);
        let back = texts::compare_read(&text, word.unit, record);
        let minus_one_and_one = word.number == -1 && word.round == 1;
        let same = if minus_one_and_one {
            Operand {
                number: 0,
                round: 0,
                ..word
            }
        } else {
            word
        };
        let good = back.refusal == DONE && back.word == same.word() && back.place == 0;
        record.check(good, || {
            format!(
                "a text read back\n  case:    {:?}\n  library: {:?}",
                word, back
            )
        });
    }
}
