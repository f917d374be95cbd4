//! Block files at the limits of count and length, in every version; and a
//! thousand files of every sort.

use super::bad_blocks::*;
use super::blocks::*;
use super::limits::*;
use super::random::Random;
use crate::model::kinds::{HALF_UNIT, KINDS, ROUND_BIT};
use crate::model::layout::{Layout, COUNT_AT, HEAD_BYTES, KIND_AT, LAYOUTS};
use crate::model::layout::{UNIT_AT, VERSION_AT, WIDTH_AT};

pub fn at_the_limits(random: &mut Random) -> Vec<Vec<u8>> {
    let mut files = Vec::new();
    for &layout in LAYOUTS {
        let most = layout.most_records;
        for count in [0, 1, most - 1, most, most + 1] {
            let kind = random.one_of(KINDS);
            let width = any_width(random, layout);
            let exact = good(random, kind, width, LEAST_UNIT as i8, count).bytes();
            files.extend(off_by_one(&exact));
            files.push(exact);
        }
        files.extend(wrong_counts(random, layout));
        files.extend(too_long(random, layout));
    }
    files
}

fn off_by_one(file: &[u8]) -> Vec<Vec<u8>> {
    let shorter = file[..file.len() - 1].to_vec();
    let mut longer = file.to_vec();
    longer.push(0);
    vec![shorter, longer]
}

/// A count past any good one whose records take so many bytes to a program that
/// keeps 32 digits of the length, if there is one.
fn count_that_wraps(layout: Layout, bytes: u64) -> Option<u32> {
    let record = layout.record_bytes() as u64;
    let lengths = (1..record).map(|times| (times << 32) + bytes);
    let mut counts = lengths.filter(|length| length % record == 0);
    counts.next().map(|length| (length / record) as u32)
}

/// Counts that the length does not bear out. 65,536 and 65,537 are 0 and 1 in 16
/// digits; the last take a few bytes in 32 digits.
fn counts_to_spoil(layout: Layout) -> Vec<u32> {
    let most = layout.most_records as u32;
    let mut counts = vec![1, most, most + 1, 65_536, 65_537, 1 << 31];
    counts.extend(
        [1, 3, 4]
            .iter()
            .filter_map(|&n| count_that_wraps(layout, n)),
    );
    counts
}

fn wrong_counts(random: &mut Random, layout: Layout) -> Vec<Vec<u8>> {
    let mut files = Vec::new();
    let longest = layout.longest_file() - HEAD_BYTES;
    let lengths = [0, 1, 3, 4, layout.record_bytes(), longest];
    for count in counts_to_spoil(layout) {
        for length in lengths {
            let width = any_width(random, layout);
            let mut file = good(random, ROUND_BIT, width, 3, 0).bytes();
            file[COUNT_AT..HEAD_BYTES].copy_from_slice(&u32::to_le_bytes(count));
            file.resize(HEAD_BYTES + length, 0);
            files.push(file);
        }
    }
    files
}

/// As long as a good file of some version, longer than it, and longer than any,
/// with a good and a wrong mark.
fn too_long(random: &mut Random, layout: Layout) -> Vec<Vec<u8>> {
    let mut files = Vec::new();
    let mut lengths = vec![1 << 16, (1 << 16) + HEAD_BYTES, (1 << 17) + HEAD_BYTES];
    for limit in LAYOUTS {
        let longest = limit.longest_file();
        lengths.extend([longest, longest + 1, longest + limit.record_bytes()]);
    }
    for length in lengths {
        for causes in [0, MARK, VERSION, KIND, WIDTH, MARK | WIDTH | UNIT] {
            let width = any_width(random, layout);
            let mut file = good(random, HALF_UNIT, width, 0, layout.most_records).bytes();
            file.resize(length, 0);
            files.push(spoil_head(file, causes));
        }
    }
    files
}

fn spoil_head(mut file: Vec<u8>, causes: u32) -> Vec<u8> {
    let spoilt = [
        (MARK, 1, b'n'),
        (VERSION, VERSION_AT, NO_VERSION),
        (KIND, KIND_AT, NO_KIND),
        (WIDTH, WIDTH_AT, MOST_FILE_WIDTH + 1),
        (UNIT, UNIT_AT, (LEAST_UNIT - 1) as u8),
    ];
    for (cause, place, byte) in spoilt {
        if causes & cause != 0 {
            file[place] = byte;
        }
    }
    file
}

/// Files of which the width alone is wrong: their numbers fit every width.
fn wrong_widths(random: &mut Random, layout: Layout) -> Vec<Vec<u8>> {
    let mut files = Vec::new();
    for width in bad_widths(layout) {
        let kind = random.one_of(KINDS);
        let mut block = good(random, kind, layout.most_width as u8, 3, 2);
        block.records.fill((-1, 0));
        block.width = width;
        files.push(block.bytes());
    }
    files
}

/// A thousand files of every sort, for the listing.
pub fn thousand(seed: u64) -> Vec<Vec<u8>> {
    let mut random = Random::new(seed, 300);
    let mut files = vec![IN_THE_DOCUMENT.to_vec(), Vec::new()];
    files.extend(at_the_limits(&mut random));
    for &layout in LAYOUTS {
        files.extend(wrong_widths(&mut random, layout));
    }
    for &kind in KINDS {
        for width in LEAST_FILE_WIDTH..=MOST_FILE_WIDTH {
            files.push(good(&mut random, kind, width, width as i8 - 17, 6).bytes());
        }
    }
    for causes in 0..ALL_CAUSES {
        if causes.count_ones() <= 1 {
            let every = LAYOUTS.iter();
            files.extend(every.map(|&layout| with_causes_of(&mut random, layout, causes)));
        } else if causes.count_ones() == 2 || random.once_in(8) {
            files.push(with_causes(&mut random, causes));
        }
    }
    while files.len() < 1000 {
        let good_file = any_good(&mut random, 60).bytes();
        files.push(good_file);
        files.push(any_damaged(&mut random, 6));
    }
    files.truncate(1000);
    files
}
