//! Block files of every version, read by both programs.

use super::bad_blocks;
use super::blocks::{self, each_byte_damaged, RANDOM_FILES};
use super::file_read_case::{compare_read, version_of};
use super::limit_blocks;
use super::limits::*;
use super::random::Random;
use super::tally::Record;
use crate::model::kinds::{Kind, KINDS};
use crate::model::layout::{Layout, HEAD_BYTES, LAYOUTS};

/// Buffers of the exact length, longer, shorter and empty, each with each.
fn read_into_all_rooms(file: &[u8], count: usize, record: &mut Record) {
    let rooms = [count, count + 1, count + 9, count.saturating_sub(1), 0];
    for numbers_room in rooms {
        for rounds_room in rooms {
            compare_read(file, numbers_room, rounds_room, record);
        }
    }
}

pub fn good(random: &mut Random, record: &mut Record) {
    for &kind in KINDS {
        for width in LEAST_FILE_WIDTH..=MOST_FILE_WIDTH {
            for unit in [LEAST_UNIT, -1, 0, MOST_UNIT] {
                for count in [0, 1, 2, 3, 40] {
                    let file = blocks::good(random, kind, width, unit as i8, count).bytes();
                    read_into_all_rooms(&file, count, record);
                }
            }
        }
    }
    compare_read(&blocks::IN_THE_DOCUMENT, 2, 2, record);
}

/// The ends of each version, and both sides of every byte.
fn widths_to_damage() -> Vec<u8> {
    let mut widths = all_end_widths();
    widths.extend([7, 8, 9, 15, 16, 17, 24, 39, 40, 41]);
    widths
}

/// Every byte of small files gets every other value.
pub fn damaged(kind: Kind, random: &mut Random, record: &mut Record) {
    for width in widths_to_damage() {
        for count in 0..3 {
            let file = blocks::good(random, kind, width, 5, count).bytes();
            each_byte_damaged(&file, |damaged| {
                compare_read(damaged, 5, 4, record);
            });
        }
    }
    for &layout in LAYOUTS {
        long_damaged(kind, layout, random, record);
    }
}

/// Long files, in a few places: the last record counts like the first.
fn long_damaged(kind: Kind, layout: Layout, random: &mut Random, record: &mut Record) {
    let start = |record: usize| layout.file_bytes(record);
    let most = layout.most_records;
    let (middle, last) = (most / 2, most - 1);
    let places = [
        start(0),
        start(1) - 1,
        start(1),
        start(middle) - 1,
        start(middle),
        start(last) - 1,
        start(last),
        start(most) - 2,
        start(most) - 1,
    ];
    for width in [layout.least_width as u8 + 2, layout.most_width as u8] {
        let file = blocks::good(random, kind, width, -5, most).bytes();
        for place in places {
            let mut damaged = file.clone();
            damaged[place] ^= random.one_of(&[0x01, 0x40, 0x80, 0xFF]);
            compare_read(&damaged, most, most + 1, record);
        }
    }
}

/// Cut at every length, and lengthened by up to three records.
pub fn cut_and_lengthened(random: &mut Random, record: &mut Record) {
    for &kind in KINDS {
        for width in all_end_widths() {
            for count in [0, 1, 2, 7] {
                let file = blocks::good(random, kind, width, 0, count).bytes();
                for length in 0..file.len() + 22 {
                    let mut other = file.clone();
                    other.resize(length, 0);
                    compare_read(&other, count + 4, count + 4, record);
                    compare_read(&other, count, count, record);
                }
            }
        }
    }
}

pub fn at_the_limits(random: &mut Random, record: &mut Record) {
    for _ in 0..4 {
        for file in limit_blocks::at_the_limits(random) {
            let count = records_in(&file);
            for (numbers_room, rounds_room) in rooms_near(count) {
                compare_read(&file, numbers_room, rounds_room, record);
            }
        }
    }
}

/// As many records as the length has room for in the version that the file says.
fn records_in(file: &[u8]) -> usize {
    let layout = version_of(file).map_or(FIRST_LAYOUT, |version| LAYOUTS[version]);
    file.len().saturating_sub(HEAD_BYTES) / layout.record_bytes()
}

fn rooms_near(count: usize) -> [(usize, usize); 5] {
    let less = count.saturating_sub(1);
    [
        (count, count),
        (count + 3, count + 2),
        (less, count),
        (count, less),
        (0, 0),
    ]
}

/// All sets of causes, each with buffers that are long enough or too short.
pub fn several_causes(random: &mut Random, record: &mut Record) {
    for _ in 0..12 {
        for causes in 0..bad_blocks::ALL_CAUSES {
            let file = bad_blocks::with_causes(random, causes);
            for (numbers_room, rounds_room) in [(2, 2), (9, 9), (1, 2), (2, 1), (0, 0)] {
                compare_read(&file, numbers_room, rounds_room, record);
            }
        }
    }
}

pub fn random(random: &mut Random, record: &mut Record) {
    for _ in 0..RANDOM_FILES {
        let file = blocks::any_file(random);
        let count = records_in(&file) as u64;
        let numbers_room = random.room(count);
        let rounds_room = random.room(count);
        compare_read(&file, numbers_room, rounds_room, record);
    }
}
