//! Block files to compare with: good ones, and what can be wrong with them.
//! They are put together here byte by byte, without any check, so that a
//! wrong file can be made as easily as a good one.

use super::limits::*;
use super::random::Random;
use crate::model::kinds::{Kind, KINDS};
use crate::model::layout::{FileNumber, Layout, HEAD_BYTES, LAYOUTS, MARK, VERSION_AT, WIDTH_AT};

/// How many random files a part has.
pub const RANDOM_FILES: u64 = 150_000;

#[derive(Clone, Debug)]
pub struct Block {
    /// A good file has that of its width.
    pub layout: Layout,
    pub kind: u8,
    pub width: u8,
    pub unit: i8,
    pub count: u32,
    pub records: Vec<(FileNumber, u8)>,
}

impl Block {
    /// Of a number only as many bytes are written as the version has for it.
    pub fn bytes(&self) -> Vec<u8> {
        let mut file = MARK.to_vec();
        file.extend(self.layout.version.to_le_bytes());
        file.extend([self.kind, self.width, self.unit as u8]);
        file.extend(self.count.to_le_bytes());
        for (number, round) in &self.records {
            file.extend(&number.to_le_bytes()[..self.layout.number_bytes]);
            file.push(*round);
        }
        file
    }
}

/// A good file, of a width that a file can have.
pub fn good(random: &mut Random, kind: Kind, width: u8, unit: i8, count: usize) -> Block {
    let records = (0..count)
        .map(|_| good_record(random, kind, width))
        .collect();
    Block {
        layout: layout_of_width(width),
        kind: kind.byte as u8,
        width,
        unit,
        count: count as u32,
        records,
    }
}

/// The ends, about 0, beside any power of 2, and all over the width.
pub fn good_record(random: &mut Random, kind: Kind, width: u8) -> (FileNumber, u8) {
    let least = (kind.least)(width as i128) as FileNumber;
    let half: FileNumber = 1 << (width - 1);
    let number = match random.below(7) {
        0 => least,
        1 => half - 1,
        2 => random.one_of(&[-1, 0]),
        3 => {
            let power = 1 << random.below(width as u64 - 1);
            random.one_of(&[power, power - 1, -power, -power - 1])
        }
        _ => random.next() as FileNumber >> (FileNumber::BITS - width as u32),
    };
    let round = match kind.most_round {
        0 => 0,
        most => random.below(most as u64 + 1) as u8,
    };
    (number.max(least), round)
}

pub fn any_width(random: &mut Random, layout: Layout) -> u8 {
    let widths = layout.most_width - layout.least_width + 1;
    layout.least_width as u8 + random.below(widths as u64) as u8
}

pub fn any_unit(random: &mut Random) -> i8 {
    (LEAST_UNIT + random.below(UNITS) as i32) as i8
}

/// As many of each version.
pub fn any_good(random: &mut Random, most: u64) -> Block {
    let kind = random.one_of(KINDS);
    let layout = random.one_of(LAYOUTS);
    let width = any_width(random, layout);
    let unit = any_unit(random);
    let count = random.below(most + 1) as usize;
    good(random, kind, width, unit, count)
}

/// The file of the document, which prints three lines.
pub const IN_THE_DOCUMENT: [u8; 22] = [
    0x52, 0x4E, 0x42, 0x01, 0x00, 0x01, 0x05, 0xFE, 0x02, 0x00, 0x00, 0x00, //
    0x0B, 0x00, 0x00, 0x00, 0x01, 0xFF, 0xFF, 0xFF, 0xFF, 0x01,
];

pub const ITS_LISTING: &str = "RN 5 -2 2\n0 11 1 24\n1 -1 1 0\n";

/// A good file with one byte changed, or cut, or lengthened, or said to be of
/// another version or width, or laid out as another version.
pub fn any_damaged(random: &mut Random, most: u64) -> Vec<u8> {
    let mut block = any_good(random, most);
    if random.once_in(10) {
        block.layout = random.one_of(LAYOUTS);
    }
    let mut file = block.bytes();
    match random.below(10) {
        0 => file.truncate(random.below(file.len() as u64) as usize),
        1 => file.extend(vec![0; 1 + random.below(12) as usize]),
        2 => file[VERSION_AT] = random.below(NO_VERSION as u64 + 1) as u8,
        3 => file[WIDTH_AT] = random.below(MOST_FILE_WIDTH as u64 + 2) as u8,
        4..=6 => {
            let place = random.below(HEAD_BYTES.min(file.len()) as u64) as usize;
            file[place] = random.next() as u8;
        }
        _ => {
            let place = random.below(file.len() as u64) as usize;
            file[place] = random.next() as u8;
        }
    }
    file
}

pub fn any_file(random: &mut Random) -> Vec<u8> {
    if random.once_in(3) {
        any_good(random, 12).bytes()
    } else {
        any_damaged(random, 12)
    }
}

pub fn each_byte_damaged(file: &[u8], mut compare: impl FnMut(&[u8])) {
    let mut damaged = file.to_vec();
    for place in 0..file.len() {
        for byte in 0..=255 {
            damaged[place] = byte;
            compare(&damaged);
        }
        damaged[place] = file[place];
    }
}

/// The start of a file, enough to see what is wrong with it.
pub fn file_text(file: &[u8]) -> String {
    let shown = file.len().min(64);
    let dots = if shown < file.len() { " .." } else { "" };
    format!("{} bytes, {:02X?}{}", file.len(), &file[..shown], dots)
}
