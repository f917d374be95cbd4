//! The versions of block files: which there are, which widths each has, and how
//! long its files are. What a file must answer is known here from document 02,
//! Ask 7; its numbers stand here as they stand there.

use super::bad_blocks::BAD_VERSIONS;
use super::blocks::{self, Block};
use super::file_read_case::expect_read;
use super::file_write_case::{expect_write, ToWrite};
use super::limits::*;
use super::random::Random;
use super::tally::Record;
use crate::model::kinds::KINDS;
use crate::model::layout::*;
use std::ops::RangeInclusive;

/// A version, its widths, and the bytes of its records.
type Said = (u16, RangeInclusive<u32>, usize);
const SAID: [Said; 2] = [(1, 2..=32, 5), (2, 33..=48, 7)];

/// How the second program lays such a file out.
fn laid_out(version: u16) -> Layout {
    layout_of(version as i128).expect("a version that is said")
}

/// Every value of either byte of the version, with a few of the other.
fn any_versions() -> Vec<[u8; 2]> {
    let mut versions = BAD_VERSIONS.to_vec();
    for byte in 0..=255 {
        versions.extend([0, 1, 2, 255].map(|high| [byte, high]));
        versions.extend([0, 1, 2, 3, 255].map(|low| [low, byte]));
    }
    versions
}

/// Files of few records or none, of the ends of every version's widths.
fn short_files(random: &mut Random) -> Vec<Block> {
    let mut files = Vec::new();
    for width in all_end_widths() {
        for count in [0, 1, 2, 5, 7] {
            let kind = random.one_of(KINDS);
            files.push(blocks::good(random, kind, width, -3, count));
        }
    }
    files
}

/// "11 for any other version"; another good one has other records, and so another
/// length, but where there are none it has the wrong width.
pub fn every_version(random: &mut Random, record: &mut Record) {
    for block in short_files(random) {
        let mut file = block.bytes();
        for version in any_versions() {
            file[VERSION_AT..KIND_AT].copy_from_slice(&version);
            let refusal = match u16::from_le_bytes(version) {
                version if version == block.layout.version => 0,
                1 | 2 if block.count == 0 => 1,
                1 | 2 => 12,
                _ => 11,
            };
            expect_read("every version", &file, refusal, record);
        }
    }
}

/// "1 for a width outside its version's range". The records are good in every
/// width, and in every kind.
pub fn every_width(_: &mut Random, record: &mut Record) {
    for (version, widths, _) in SAID {
        for width in 0..=255 {
            let refusal = if widths.contains(&(width as u32)) {
                0
            } else {
                1
            };
            for kind in 0..3 {
                for count in [0, 1, 3] {
                    let block = Block {
                        layout: laid_out(version),
                        kind,
                        width,
                        unit: -9,
                        count,
                        records: vec![(-1, 0); count as usize],
                    };
                    expect_read("every width", &block.bytes(), refusal, record);
                }
            }
        }
    }
}

/// "12 uses each version's count and length": records of every size.
pub fn every_length(random: &mut Random, record: &mut Record) {
    for (version, _, record_bytes) in SAID {
        for width in end_widths(laid_out(version)) {
            let kind = random.one_of(KINDS);
            let head = blocks::good(random, kind, width, 0, 0).bytes();
            for count in (0..=40).chain([1_000, 7_999, 8_000, 8_001]) {
                for size in 0..=12 {
                    let mut file = head.clone();
                    file[COUNT_AT..HEAD_BYTES].copy_from_slice(&u32::to_le_bytes(count));
                    file.resize(HEAD_BYTES + size * count as usize, 0);
                    let good = count == 0 || count <= 8_000 && size == record_bytes;
                    let refusal = if good { 0 } else { 12 };
                    expect_read("every length", &file, refusal, record);
                }
            }
        }
    }
}

/// 7 records of 5 bytes are as long as 5 of 7 bytes: a file of one version is
/// turned into one of the other step by step.
pub fn same_length(random: &mut Random, record: &mut Record) {
    for times in [1, 2, 9, 100, 1_142] {
        for (from, count, to, other, width) in [(5, 7, 2, 5, 40), (40, 5, 1, 7, 5)] {
            let kind = random.one_of(KINDS);
            let mut block = blocks::good(random, kind, from, 0, times * count);
            block.records.fill((0, 0));
            let mut file = block.bytes();
            let what = "records of two versions that are as long";
            expect_read(what, &file, 0, record);
            file[VERSION_AT] = to;
            expect_read(what, &file, 12, record);
            let count = (times * other) as u32;
            file[COUNT_AT..HEAD_BYTES].copy_from_slice(&count.to_le_bytes());
            expect_read(what, &file, 1, record);
            file[WIDTH_AT] = width;
            expect_read(what, &file, 0, record);
            file[VERSION_AT] = 3 - to;
            expect_read(what, &file, 12, record);
        }
    }
}

/// "Widths 2 to 32 are always written as version 1, widths 33 to 48 as version 2".
pub fn written(_: &mut Random, record: &mut Record) {
    for width in (0..=300).chain([65_536 + 33, (1 << 31) + 5, u32::MAX]) {
        for kind in 0..3 {
            for count in [0, 1, 4] {
                let block = ToWrite {
                    kind,
                    width,
                    unit: 4,
                    numbers: vec![-2; count],
                    rounds: vec![0; count],
                };
                let said = SAID.iter().find(|(_, widths, _)| widths.contains(&width));
                let refusal = if said.is_some() { 0 } else { 1 };
                let what = "the width decides the version";
                let written = expect_write(what, &block, refusal, record);
                if let Some((version, _, record_bytes)) = said {
                    let file = written.file();
                    let good = file.len() == 12 + record_bytes * count
                        && file[VERSION_AT..KIND_AT] == version.to_le_bytes();
                    record.check(good, || format!("{}\n  case:    {}", what, block.text()));
                }
            }
        }
    }
}
