//! Blocks of every width, written by both programs as block files.

use super::blocks::{self, RANDOM_FILES};
use super::file_write_case::{compare_write, ToWrite};
use super::limits::*;
use super::random::Random;
use super::tally::Record;
use crate::model::kinds::KINDS;
use crate::model::layout::{FileNumber, LAYOUTS};

fn write_into_all_rooms(input: &ToWrite, record: &mut Record) {
    let needed = input.file_length();
    for room in [needed, needed + 1, needed + 30, needed - 1, needed / 2, 0] {
        compare_write(input, room, record);
    }
}

pub fn good(random: &mut Random, record: &mut Record) {
    for &kind in KINDS {
        for width in LEAST_FILE_WIDTH..=MOST_FILE_WIDTH {
            for unit in [LEAST_UNIT, -1, 0, MOST_UNIT] {
                for count in [0, 1, 2, 3, 40] {
                    let block = blocks::good(random, kind, width, unit as i8, count);
                    write_into_all_rooms(&ToWrite::of(block), record);
                }
            }
        }
    }
}

/// Past 255 some look like good ones to a program that drops digits.
fn any_kinds() -> Vec<u32> {
    let good = KINDS.iter().map(|kind| kind.byte as u32);
    let mut kinds: Vec<u32> = good.clone().collect();
    kinds.extend([NO_KIND as u32, NO_KIND as u32 + 1, 255]);
    kinds.extend(good.map(|byte| 256 + byte));
    kinds.push(u32::MAX);
    kinds
}

/// The ends of each version's widths too; some of the others look like these.
fn any_widths() -> Vec<u32> {
    let mut widths = vec![0, LEAST_FILE_WIDTH as u32 - 1, MOST_FILE_WIDTH as u32 + 1];
    widths.extend([MOST_WIDTH, MOST_WIDTH + 1, u32::MAX]);
    widths.extend([256, 1 << 31].map(|high| high + LEAST_FILE_WIDTH as u32));
    widths.extend([256, 1 << 16].map(|high| high + MOST_FILE_WIDTH as u32));
    widths.extend(all_end_widths().iter().map(|&width| width as u32));
    widths
}

const ANY_UNITS: [i32; 10] = [
    i32::MIN,
    LEAST_UNIT - 2,
    LEAST_UNIT - 1,
    LEAST_UNIT,
    0,
    MOST_UNIT,
    MOST_UNIT + 1,
    256,
    256 + MOST_UNIT,
    i32::MAX,
];

/// Every kind, width and unit with good and bad records and lengths.
pub fn several_causes(random: &mut Random, record: &mut Record) {
    for kind in any_kinds() {
        for width in any_widths() {
            for unit in ANY_UNITS {
                for spoil in 0..11 {
                    let input = spoiled(random, kind, width, unit, spoil);
                    let needed = input.file_length();
                    for room in [needed + 4, needed, needed - 1, 0] {
                        compare_write(&input, room, record);
                    }
                }
            }
        }
    }
}

/// Three records that are good in the kind and width if these are good, then
/// one thing more that is wrong.
fn spoiled(random: &mut Random, kind: u32, width: u32, unit: i32, spoil: u32) -> ToWrite {
    let good_kind = row_of_kind(kind.min(LAST_KIND as u32) as u8);
    let good_width = width.clamp(LEAST_FILE_WIDTH as u32, MOST_FILE_WIDTH as u32) as u8;
    let block = blocks::good(random, good_kind, good_width, 0, 3);
    let mut input = ToWrite {
        kind,
        width,
        unit,
        ..ToWrite::of(block)
    };
    let past: FileNumber = 1 << (good_width - 1);
    match spoil {
        0 => {}
        1 => input.rounds.push(0),
        2 => drop(input.rounds.pop()),
        3 => input.numbers.clear(),
        4 => input.rounds.clear(),
        5 => input.numbers[2] = past,
        6 => input.numbers[0] = -past - 1,
        7 => input.rounds[2] = 1,
        8 => input.rounds[1] = random.one_of(&[2, 128, 255]),
        9 => input.numbers[1] = random.one_of(&[FileNumber::MIN, FileNumber::MAX]),
        // The same digits below, and one above all that any file has.
        _ => input.numbers[1] ^= 1 << random.one_of(&[48, 56, 62, 63]),
    }
    input
}

pub fn at_the_limits(random: &mut Random, record: &mut Record) {
    for kind in 0..=NO_KIND {
        for &layout in LAYOUTS {
            let most = layout.most_records;
            let [least, _, _, greatest] = end_widths(layout);
            for count in [0, 1, most - 1, most, most + 1, most + 2] {
                for width in [least - 1, least, greatest, greatest + 1] {
                    limit(random, kind, width, count, record);
                }
            }
        }
    }
}

fn limit(random: &mut Random, kind: u8, width: u8, count: usize, record: &mut Record) {
    let good_kind = row_of_kind(kind.min(LAST_KIND));
    let good_width = width.clamp(LEAST_FILE_WIDTH, MOST_FILE_WIDTH);
    let block = blocks::good(random, good_kind, good_width, MOST_UNIT as i8, count);
    let input = ToWrite {
        kind: kind as u32,
        width: width as u32,
        ..ToWrite::of(block)
    };
    write_into_all_rooms(&input, record);
    let bad_unit = ToWrite {
        unit: MOST_UNIT + 1,
        ..input.clone()
    };
    write_into_all_rooms(&bad_unit, record);
    write_unlike_lengths(&input, record);
}

/// More than any file needs.
const MUCH_ROOM: usize = LONGEST_FILE + 4_000;

fn write_unlike_lengths(input: &ToWrite, record: &mut Record) {
    let count = input.numbers.len();
    let less = count.saturating_sub(1);
    for other in [0, less, count + 1, MOST_RECORDS, MOST_RECORDS + 1] {
        let mut unlike = input.clone();
        unlike.rounds.resize(other, 0);
        compare_write(&unlike, MUCH_ROOM, record);
        let mut unlike = input.clone();
        unlike.numbers.resize(other, 0);
        compare_write(&unlike, MUCH_ROOM, record);
    }
}

pub fn random(random: &mut Random, record: &mut Record) {
    for _ in 0..RANDOM_FILES {
        let input = any_to_write(random);
        let room = random.room(input.file_length() as u64);
        compare_write(&input, room, record);
    }
}

/// Half of them have something wrong.
pub fn any_to_write(random: &mut Random) -> ToWrite {
    let mut input = ToWrite::of(blocks::any_good(random, 12));
    if random.once_in(2) {
        spoil(random, &mut input);
    }
    input
}

fn spoil(random: &mut Random, input: &mut ToWrite) {
    let count = input.numbers.len() as u64;
    let place = random.below(count.max(1)) as usize;
    match random.below(7) {
        0 => input.kind = random.one_of(&any_kinds()),
        1 => input.width = random.one_of(&any_widths()),
        2 => input.unit = random.one_of(&ANY_UNITS),
        // Of every size that 64 digits have.
        3 if count > 0 => input.numbers[place] = random.next() as FileNumber >> random.below(64),
        4 if count > 0 => input.numbers[place] ^= 1 << random.below(64),
        5 if count > 0 => input.rounds[place] = random.next() as u8,
        _ => input.rounds.resize(random.below(14) as usize, 0),
    }
}
