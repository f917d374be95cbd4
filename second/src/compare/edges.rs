//! Words and depths at and just past the edges of what is allowed.

use super::call::compare_all;
use super::case::{Operand, Takes};
use super::job::Job;
use super::limits::*;
use super::operations::OPERATIONS;
use super::tally::Record;

const EDGE_WIDTHS: [u32; 11] = [
    LEAST_WIDTH - 2,
    LEAST_WIDTH - 1,
    LEAST_WIDTH,
    LEAST_WIDTH + 1,
    MIDDLE_WIDTH - 1,
    MIDDLE_WIDTH,
    MIDDLE_WIDTH + 1,
    MOST_WIDTH - 1,
    MOST_WIDTH,
    MOST_WIDTH + 1,
    u32::MAX,
];
pub const EDGE_UNITS: [i32; 11] = [
    i32::MIN,
    LEAST_UNIT - 1,
    LEAST_UNIT,
    LEAST_UNIT + 1,
    -1,
    0,
    1,
    MOST_UNIT - 1,
    MOST_UNIT,
    MOST_UNIT + 1,
    i32::MAX,
];
const ROUNDS: [u8; 4] = [0, 1, 2, 255];

pub fn jobs() -> Vec<Job> {
    let mut jobs = Vec::new();
    for row in 0..OPERATIONS.len() {
        let name = format!("edges, {}", OPERATIONS[row].name);
        jobs.push(Job::new(name, move |record| edge_cases(row, record)));
    }
    for row in 0..OPERATIONS.len() {
        let name = format!("every width, {}", OPERATIONS[row].name);
        jobs.push(Job::new(name, move |record| every_width(row, record)));
    }
    jobs
}

fn edge_cases(row: usize, record: &mut Record) {
    let takes = OPERATIONS[row].takes;
    let all = if !takes.second {
        edge_words(takes)
    } else if takes.depth {
        few_words(takes)
    } else {
        shorter_list(takes)
    };
    compare_all(row, &all, edge_depths, &all, record);
}

/// No width is left out, with every depth there is for it; pairs
/// of all widths have fewer depths and numbers.
fn every_width(row: usize, record: &mut Record) {
    let takes = OPERATIONS[row].takes;
    let widths: Vec<u32> = (LEAST_WIDTH..=MOST_WIDTH).collect();
    if takes.second {
        let words = good_words(takes, &widths, &[0], fewer_numbers);
        compare_all(row, &words, edge_depths, &words, record);
    } else {
        let units = [LEAST_UNIT, -66, -3, 0, 3, 66, MOST_UNIT];
        let words = good_words(takes, &widths, &units, end_numbers);
        let depths = |_| (0..=MOST_WIDTH as u64 + 2).collect();
        compare_all(row, &words, depths, &[], record);
    }
}

/// All combinations of the edges of one operand.
pub fn edge_words(takes: Takes) -> Vec<Operand> {
    let mut words = Vec::new();
    for width in EDGE_WIDTHS {
        let numbers = if takes.number {
            edge_numbers(width)
        } else {
            vec![0]
        };
        for &number in &numbers {
            for &unit in &EDGE_UNITS {
                for &round in rounds(takes, &ROUNDS) {
                    words.push(Operand {
                        number,
                        round,
                        width,
                        unit,
                    });
                }
            }
        }
    }
    words
}

fn rounds(takes: Takes, rounds: &[u8]) -> &[u8] {
    if takes.round {
        rounds
    } else {
        &rounds[..1]
    }
}

/// Both ends of the width and of i64, their neighbours, and the middle.
fn edge_numbers(width: u32) -> Vec<i64> {
    // Widths 0 and over 64 have no ends of their own that an i64 can hold.
    let half = 1i128 << (width.clamp(1, i64::BITS) - 1);
    let wanted = [
        -half - 1,
        -half,
        -half + 1,
        -1,
        0,
        1,
        half - 2,
        half - 1,
        half,
        i64::MIN as i128,
        i64::MAX as i128,
    ];
    let mut numbers: Vec<i64> = wanted
        .iter()
        .filter_map(|&n| i64::try_from(n).ok())
        .collect();
    numbers.sort();
    numbers.dedup();
    numbers
}

/// 257 and 2^32 + 1 look like 1 to a program that drops their high digits.
pub fn edge_depths(width: u32) -> Vec<u64> {
    let n = width as u64;
    let most = MOST_WIDTH as u64;
    let mut depths = vec![0, 1, 2, n, most - 1, most, most + 1, 257];
    depths.extend((1..=3).filter_map(|k| n.checked_sub(k)));
    depths.extend([1 << 32, (1 << 32) + 1, 1 << 63, u64::MAX - 1, u64::MAX]);
    depths.sort();
    depths.dedup();
    depths
}

/// For pairs: good words of every format that matters, then bad ones.
fn shorter_list(takes: Takes) -> Vec<Operand> {
    let good = |width: &u32| (LEAST_WIDTH..=MOST_WIDTH).contains(width);
    let widths: Vec<u32> = EDGE_WIDTHS.into_iter().filter(good).collect();
    let units = [
        LEAST_UNIT,
        -MIDDLE_UNIT,
        -MIDDLE_UNIT + 1,
        0,
        1,
        MIDDLE_UNIT - 1,
        MIDDLE_UNIT,
        MOST_UNIT,
    ];
    let mut words = good_words(takes, &widths, &units, end_numbers);
    words.extend(bad_words(takes));
    words
}

/// For a running sum and a word, which have the depths besides.
fn few_words(takes: Takes) -> Vec<Operand> {
    let widths = [
        LEAST_WIDTH,
        LEAST_WIDTH + 1,
        LEAST_WIDTH + 2,
        MIDDLE_WIDTH,
        MOST_WIDTH - 1,
        MOST_WIDTH,
    ];
    let units = [LEAST_UNIT, 0, MOST_UNIT - 2, MOST_UNIT];
    let mut words = good_words(takes, &widths, &units, fewer_numbers);
    words.extend(bad_words(takes).iter().step_by(3));
    words
}

fn end_numbers(half: i64) -> Vec<i64> {
    let mut numbers = vec![-half, -half + 1, -1, 0, 1, half - 2, half - 1];
    numbers.sort();
    numbers.dedup();
    numbers.retain(|number| *number < half);
    numbers
}

fn fewer_numbers(half: i64) -> Vec<i64> {
    vec![-half, -1, 0, half - 1]
}

fn good_words(
    takes: Takes,
    widths: &[u32],
    units: &[i32],
    numbers: fn(i64) -> Vec<i64>,
) -> Vec<Operand> {
    let mut words = Vec::new();
    for &width in widths {
        let numbers = if takes.number {
            numbers(1 << (width - 1))
        } else {
            vec![0]
        };
        for &number in &numbers {
            for &unit in units {
                for &round in rounds(takes, &[0, 1]) {
                    words.push(Operand {
                        number,
                        round,
                        width,
                        unit,
                    });
                }
            }
        }
    }
    words
}

/// Words with one cause, and with several, so that their order is seen.
fn bad_words(takes: Takes) -> Vec<Operand> {
    let mut words = Vec::new();
    for width in [0, LEAST_WIDTH - 1, MOST_WIDTH + 1, u32::MAX, 5] {
        for unit in [i32::MIN, LEAST_UNIT - 1, 0, MOST_UNIT + 1, i32::MAX] {
            for number in [i64::MIN, -17, 0, 16, i64::MAX] {
                for &round in rounds(takes, &[0, 2, 255]) {
                    let good = width == 5 && unit == 0 && number == 0 && round == 0;
                    if !good {
                        words.push(Operand {
                            number,
                            round,
                            width,
                            unit,
                        });
                    }
                }
            }
        }
    }
    words
}
