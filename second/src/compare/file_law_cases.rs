//! Files and blocks that are held to the laws of block files: random ones, good
//! ones with one place changed, and blocks laid out as another version.

use super::bad_blocks;
use super::blocks::{self, any_file, each_byte_damaged, file_text, Block};
use super::file_laws::{block_of, hold_block, hold_file, same};
use super::file_read_case::expect_read;
use super::file_write_case::ToWrite;
use super::files_written::any_to_write;
use super::limit_blocks;
use super::limits::*;
use super::random::Random;
use super::tally::Record;
use crate::model::kinds::KINDS;
use crate::model::layout::{HEAD_BYTES, LAYOUTS, VERSION_AT};

const DRAWS: u64 = 30_000;

pub fn random_files(random: &mut Random, record: &mut Record) {
    for _ in 0..DRAWS {
        let file = any_file(random);
        let room = random.room(file.len() as u64 / 6);
        hold_file(&file, room, record);
    }
}

pub fn random_blocks(random: &mut Random, record: &mut Record) {
    for _ in 0..DRAWS {
        let block = any_to_write(random);
        let room = random.room(block.file_length() as u64);
        hold_block(&block, room, record);
    }
}

/// Files with every set of causes, and files at the limits.
pub fn bad_files(random: &mut Random, record: &mut Record) {
    for causes in 0..bad_blocks::ALL_CAUSES {
        for &layout in LAYOUTS {
            let file = bad_blocks::with_causes_of(random, layout, causes);
            for room in [0, 1, 2, 3] {
                hold_file(&file, room, record);
            }
        }
    }
    for file in limit_blocks::at_the_limits(random) {
        hold_file(&file, MOST_RECORDS, record);
    }
}

/// Every kind and width, from no record to a few and the most there are.
pub fn every_width(random: &mut Random, record: &mut Record) {
    for &kind in KINDS {
        for width in LEAST_FILE_WIDTH..=MOST_FILE_WIDTH {
            for count in [0, 1, 2, 9] {
                let block = ToWrite::of(blocks::good(random, kind, width, -(width as i8), count));
                let file = hold_block(&block, block.file_length(), record);
                hold_file(&file, count, record);
            }
        }
        for width in all_end_widths() {
            let block = ToWrite::of(blocks::good(random, kind, width, 1, MOST_RECORDS));
            let file = hold_block(&block, block.file_length(), record);
            hold_file(&file, MOST_RECORDS, record);
        }
    }
}

/// One file has one block: what is changed in a file is refused, or another block.
pub fn another_file(random: &mut Random, record: &mut Record) {
    for width in all_end_widths() {
        let kind = random.one_of(KINDS);
        let file = blocks::good(random, kind, width, -2, 2).bytes();
        let block = block_of(&hold_file(&file, 2, record));
        each_byte_damaged(&file, |damaged| {
            let read = hold_file(damaged, 3, record);
            let good = damaged != file && read.head.refusal == 0;
            record.check(!(good && same(&block_of(&read), &block)), || {
                let (file, damaged) = (file_text(&file), file_text(damaged));
                format!(
                    "two files of one block\n  files:   {} and {}",
                    file, damaged
                )
            });
        });
    }
}

/// "one block still has one file": what is changed in a block changes its file.
pub fn another_block(random: &mut Random, record: &mut Record) {
    for &kind in KINDS {
        for width in LEAST_FILE_WIDTH..=MOST_FILE_WIDTH {
            let good = blocks::good(random, kind, width, 0, 3);
            let block = ToWrite::of(good.clone());
            let file = hold_block(&block, block.file_length(), record);
            for other in changed(random, &good) {
                let room = other.file_length();
                let others = hold_block(&other, room, record);
                record.check(others.is_empty() || others != file, || {
                    format!(
                        "two blocks of one file\n  blocks:  {} and {}",
                        block.text(),
                        other.text()
                    )
                });
            }
        }
    }
}

/// In one place each; some are good blocks and some are not.
fn changed(random: &mut Random, good: &Block) -> Vec<ToWrite> {
    let block = || ToWrite::of(good.clone());
    let mut all = Vec::new();
    for kind in 0..NO_KIND as u32 {
        if kind != block().kind {
            all.push(ToWrite { kind, ..block() });
        }
    }
    for width in 0..=MOST_FILE_WIDTH as u32 + 1 {
        if width != block().width {
            all.push(ToWrite { width, ..block() });
        }
    }
    for unit in [LEAST_UNIT, -1, 1, MOST_UNIT] {
        all.push(ToWrite { unit, ..block() });
    }
    for place in 0..3 {
        for digit in 0..64 {
            let mut other = block();
            other.numbers[place] ^= 1 << digit;
            all.push(other);
        }
        let mut other = block();
        other.rounds[place] ^= random.one_of(&[1, 1, 2]);
        all.push(other);
    }
    let mut fewer = block();
    fewer.numbers.pop();
    fewer.rounds.pop();
    all.push(fewer);
    all
}

/// A good block laid out as another version has it: its width is refused, and so
/// it is not a second file of the block.
pub fn another_version(random: &mut Random, record: &mut Record) {
    for &kind in KINDS {
        for width in LEAST_FILE_WIDTH..=MOST_FILE_WIDTH {
            for count in [0, 1, 2, 30] {
                let block = blocks::good(random, kind, width, 9, count);
                for layout in others(block.layout) {
                    let file = Block {
                        layout,
                        ..block.clone()
                    };
                    let what = "a block laid out as another version";
                    expect_read(what, &file.bytes(), 1, record);
                    // Only the version is another's: a length without records is right.
                    let mut file = block.bytes();
                    file[VERSION_AT] = layout.version as u8;
                    let refusal = if file.len() == HEAD_BYTES { 1 } else { 12 };
                    expect_read(
                        "a file said to be of another version",
                        &file,
                        refusal,
                        record,
                    );
                }
            }
        }
    }
}
