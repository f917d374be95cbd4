//! What can be wrong with a block file: single causes, and sets of them.

use super::blocks::*;
use super::limits::*;
use super::random::Random;
use crate::model::kinds::KINDS;
use crate::model::layout::{self, Layout, HEAD_BYTES, KIND_AT, LAYOUTS, VERSION_AT};

/// What can be wrong with a file, one bit for each, in the document's order.
pub const UNDER_A_HEAD: u32 = 1;
pub const MARK: u32 = 2;
pub const VERSION: u32 = 4;
pub const KIND: u32 = 8;
pub const COUNT: u32 = 16;
pub const LENGTH: u32 = 32;
pub const WIDTH: u32 = 64;
pub const UNIT: u32 = 128;
pub const NUMBER: u32 = 256;
pub const ROUND: u32 = 512;
/// A good version, but another than the rest of the file is made for.
pub const OTHER_VERSION: u32 = 1024;
pub const ALL_CAUSES: u32 = 2048;

/// Some have a good version in one of the two bytes.
pub const BAD_VERSIONS: [[u8; 2]; 11] = [
    [0, 0],
    [NO_VERSION, 0],
    [NO_VERSION + 1, 0],
    [0, 1],
    [1, 1],
    [2, 1],
    [0, 2],
    [1, 2],
    [2, 2],
    [0, 128],
    [255, 255],
];

/// Widths that are none in any version, or in another only.
pub fn bad_widths(layout: Layout) -> Vec<u8> {
    let mut widths = vec![0, LEAST_FILE_WIDTH - 1];
    widths.extend(others(layout).flat_map(end_widths));
    widths.extend([MOST_FILE_WIDTH + 1, MOST_FILE_WIDTH + 2, 64, 130, 255]);
    widths
}

/// A file of two records with every cause in the set, of any version.
pub fn with_causes(random: &mut Random, causes: u32) -> Vec<u8> {
    let layout = random.one_of(LAYOUTS);
    with_causes_of(random, layout, causes)
}

pub fn with_causes_of(random: &mut Random, layout: Layout, causes: u32) -> Vec<u8> {
    let has = |cause: u32| causes & cause != 0;
    let (kind, unit) = (random.one_of(KINDS), any_unit(random));
    // Less than the most, so that the width has numbers past it.
    let width = any_width(random, layout).min(layout.most_width as u8 - 1);
    let mut block = good(random, kind, width, unit, 2);
    if has(NUMBER) {
        block.records[1].0 = random.one_of(&[1, -1]) << block.width;
    }
    if has(ROUND) {
        block.records[0].1 = random.one_of(&[2, 255, 128]);
    }
    if has(WIDTH) {
        block.width = random.one_of(&bad_widths(layout));
    }
    if has(UNIT) {
        block.unit = (LEAST_UNIT - 1) as i8;
    }
    if has(COUNT) {
        block.count = random.one_of(&[0, 1, 3, MOST_RECORDS as u32 + 1, 1 << 31, u32::MAX]);
    }
    if has(KIND) {
        block.kind = random.one_of(&[NO_KIND, NO_KIND + 1, 128, 129, 255]);
    }
    spoil_ends(random, causes, &block)
}

/// The causes that do not stand in a block: mark, version and length.
fn spoil_ends(random: &mut Random, causes: u32, block: &Block) -> Vec<u8> {
    let has = |cause: u32| causes & cause != 0;
    let mut file = block.bytes();
    if has(MARK) {
        file[random.below(layout::MARK.len() as u64) as usize] ^= random.one_of(&[1, 0x20, 0x80]);
    }
    if has(OTHER_VERSION) {
        let others: Vec<Layout> = others(block.layout).collect();
        let version = random.one_of(&others).version.to_le_bytes();
        file[VERSION_AT..KIND_AT].copy_from_slice(&version);
    }
    if has(VERSION) {
        let version = random.one_of(&BAD_VERSIONS);
        file[VERSION_AT..KIND_AT].copy_from_slice(&version);
    }
    if has(LENGTH) {
        let length = random.one_of(&bad_lengths(block));
        file.resize(length, 0);
    }
    if has(UNDER_A_HEAD) {
        file.truncate(random.below(HEAD_BYTES as u64) as usize);
    }
    file
}

/// By a byte, by a record, and those that other versions have for the records.
fn bad_lengths(block: &Block) -> Vec<usize> {
    let (good, record) = (block.bytes().len(), block.layout.record_bytes());
    let mut lengths = vec![good - record, good - 1, good + 1, good + record];
    let of_others = others(block.layout).map(|other| other.file_bytes(block.records.len()));
    lengths.extend(of_others);
    lengths
}
