//! Random cases over all widths and all operations.

use super::call::compare;
use super::case::{Case, Operand, Takes};
use super::job::Job;
use super::limits::*;
use super::operations::OPERATIONS;
use super::random::Random;
use super::tally::Record;
use super::texts;

/// For each operation; with the two of the digit text 26 million in all.
const CASES: u64 = 1_000_000;

pub fn jobs(seed: u64) -> Vec<Job> {
    let mut jobs = Vec::new();
    for row in 0..OPERATIONS.len() {
        let name = format!("random, {}", OPERATIONS[row].name);
        jobs.push(Job::new(name, move |record| {
            random_cases(seed, row, record)
        }));
    }
    jobs.push(Job::new("random, frost_digit_text_write", move |record| {
        write_texts(seed, record)
    }));
    jobs.push(Job::new("random, frost_digit_text_read", move |record| {
        read_texts(seed, record)
    }));
    jobs
}

fn random_cases(seed: u64, row: usize, record: &mut Record) {
    let mut random = Random::new(seed, row as u64);
    let takes = OPERATIONS[row].takes;
    for _ in 0..CASES {
        let case = random_case(&mut random, takes);
        compare(row, &case, record);
    }
}

fn random_case(random: &mut Random, takes: Takes) -> Case {
    let first = word(random);
    let second = if takes.second {
        second_word(random, first)
    } else {
        Operand::BLANK
    };
    Case {
        first,
        depth: depth(random, first),
        second,
    }
}

/// Mostly a good word; about one in ten has a cause 1, 2 or 3.
pub fn word(random: &mut Random) -> Operand {
    let width = width(random);
    let unit = unit(random);
    word_of(random, width, unit)
}

fn word_of(random: &mut Random, width: u32, unit: i32) -> Operand {
    Operand {
        number: number(random, width),
        round: round(random),
        width,
        unit,
    }
}

pub fn width(random: &mut Random) -> u32 {
    match random.below(32) {
        0 => random.one_of(&[
            0,
            LEAST_WIDTH - 1,
            MOST_WIDTH + 1,
            MOST_WIDTH + 2,
            256 + LEAST_WIDTH,
            u32::MAX,
        ]),
        1 => random.next() as u32,
        2 | 3 => random.one_of(&[LEAST_WIDTH, LEAST_WIDTH + 1, MOST_WIDTH - 1, MOST_WIDTH]),
        _ => LEAST_WIDTH + random.below(WIDTHS) as u32,
    }
}

pub fn unit(random: &mut Random) -> i32 {
    match random.below(32) {
        0 => random.one_of(&[LEAST_UNIT - 1, MOST_UNIT + 1, i32::MIN, i32::MAX, 256]),
        1 => random.next() as i32,
        2..=5 => random.one_of(&[
            LEAST_UNIT,
            LEAST_UNIT + 1,
            MOST_UNIT - 1,
            MOST_UNIT,
            -MIDDLE_UNIT,
            MIDDLE_UNIT,
            MIDDLE_UNIT - 1,
        ]),
        _ => LEAST_UNIT + random.below(UNITS) as i32,
    }
}

fn round(random: &mut Random) -> u8 {
    match random.below(64) {
        0 => random.one_of(&[2, 3, 128, 254, 255]),
        1 => random.next() as u8,
        _ => random.below(2) as u8,
    }
}

fn number(random: &mut Random, width: u32) -> i64 {
    let width = width.clamp(1, i64::BITS);
    // As a 128-bit number, since 2^(n-1) of width 64 is past an i64.
    let half = 1i128 << (width - 1);
    let near = random.below(4) as i128;
    let number = match random.below(24) {
        0 => random.one_of(&[half, -half - 1, half + 1]),
        1 => random.next() as i64 as i128,
        2..=4 => -half + near,
        5..=7 => half - 1 - near,
        8..=10 => near - 2,
        11..=14 => any_narrower(random, width),
        _ => any_in(random, width),
    };
    number as i64
}

/// Small numbers as often as large ones.
pub fn any_narrower(random: &mut Random, width: u32) -> i128 {
    let narrower = 1 + random.below(width as u64) as u32;
    any_in(random, narrower)
}

/// Any number of the width, 1 to 64.
fn any_in(random: &mut Random, width: u32) -> i128 {
    (random.next() as i64 >> (64 - width)) as i128
}

/// Often of the first word's format, so that sums are done; often of a width
/// and unit that let a product be done, just or just not.
fn second_word(random: &mut Random, first: Operand) -> Operand {
    let (width, unit) = match random.below(8) {
        0..=3 => (first.width, first.unit),
        4 => (first.width, unit(random)),
        5 => (width(random), first.unit),
        6 => {
            let near_width = MOST_WIDTH as i64 - first.width as i64 + random.below(4) as i64;
            let past = MOST_WIDTH as i64 + 1;
            let near_unit = MOST_UNIT as i64 - 1 - first.unit as i64 + random.below(4) as i64;
            (near_width.clamp(0, past) as u32, one_past(near_unit))
        }
        _ => {
            let room = (MOST_WIDTH - 1).saturating_sub(first.width).max(1) as u64;
            let near_unit = LEAST_UNIT as i64 - 1 - first.unit as i64 + random.below(5) as i64;
            let unit = match random.once_in(2) {
                true => unit(random),
                false => one_past(near_unit),
            };
            (LEAST_WIDTH + random.below(room) as u32, unit)
        }
    };
    word_of(random, width, unit)
}

/// At most one past either end.
fn one_past(unit: i64) -> i32 {
    unit.clamp(LEAST_UNIT as i64 - 1, MOST_UNIT as i64 + 1) as i32
}

fn depth(random: &mut Random, first: Operand) -> u64 {
    let most = MOST_WIDTH as u64;
    let n = first.width.min(70) as u64;
    match random.below(16) {
        0 => random.next(),
        1 => random.one_of(&[
            most,
            most + 1,
            256,
            257,
            1 << 32,
            (1 << 32) + 1,
            1 << 63,
            u64::MAX,
        ]),
        2..=4 => (n + 1).saturating_sub(random.below(5)),
        5 => 0,
        6 => most.saturating_sub(n) + random.below(3),
        7 => (MOST_UNIT as i64 - 1 - first.unit as i64 + random.below(4) as i64).max(0) as u64,
        8..=11 => random.below(5),
        _ => random.below(n + 2),
    }
}

fn write_texts(seed: u64, record: &mut Record) {
    let mut random = Random::new(seed, 100);
    for _ in 0..CASES {
        let word = word(&mut random);
        let n = word.width.min(MOST_WIDTH + 1) as u64;
        let room = match random.below(8) {
            0 => random.below(n + 1),
            1 => n.saturating_sub(1),
            2 => n,
            _ => n + random.below(10),
        };
        texts::compare_write(word, room as usize, record);
    }
}

fn read_texts(seed: u64, record: &mut Record) {
    let mut random = Random::new(seed, 101);
    for _ in 0..CASES {
        let mut text = good_text(&mut random);
        if random.once_in(4) {
            damage(&mut random, &mut text);
        }
        let unit = unit(&mut random);
        texts::compare_read(&text, unit, record);
    }
}

fn good_text(random: &mut Random) -> Vec<u8> {
    let length = if random.once_in(20) {
        random.below(130)
    } else {
        LEAST_WIDTH as u64 + random.below(WIDTHS)
    };
    good_text_of(random, length as usize)
}

/// Alternating signs among zeros; the zeros are seldom or many.
pub fn good_text_of(random: &mut Random, length: usize) -> Vec<u8> {
    let zeros = random.one_of(&[2, 3, 10, 60]);
    let mut sign = random.one_of(&[b'+', b'-']);
    let mut text = Vec::new();
    for _ in 0..length {
        if random.once_in(zeros) {
            text.push(sign);
            sign = if sign == b'+' { b'-' } else { b'+' };
        } else {
            text.push(b'0');
        }
    }
    text
}

fn damage(random: &mut Random, text: &mut [u8]) {
    if text.is_empty() {
        return;
    }
    let place = random.below(text.len() as u64) as usize;
    text[place] = match random.below(4) {
        0 => random.next() as u8,
        _ => random.one_of(&[b'+', b'-', b'0']),
    };
}
