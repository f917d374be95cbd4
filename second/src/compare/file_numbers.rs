//! The numbers of block files: the ends of every width and just past them, single
//! digits, every byte of a number, and numbers that no file has. Whether a number
//! is good is known here from its width alone.

use super::blocks::{good_record, Block};
use super::file_laws::is_good_record;
use super::file_read_case::expect_read;
use super::file_write_case::{expect_write, ToWrite};
use super::limits::*;
use super::random::Random;
use super::tally::Record;
use crate::model::kinds::{Kind, KINDS};
use crate::model::layout::FileNumber;

const ROUNDS: [u8; 4] = [0, 1, 2, 255];

/// A record between two good ones, its number cut to the bytes that its version
/// has; the number that is read must be the one that these bytes are worth.
fn read(kind: Kind, width: u8, entry: (FileNumber, u8), record: &mut Record) {
    let layout = layout_of_width(width);
    let above = FileNumber::BITS - 8 * layout.number_bytes as u32;
    let worth = entry.0 << above >> above;
    let block = Block {
        layout,
        kind: kind.byte as u8,
        width,
        unit: 0,
        count: 3,
        records: vec![(1, 0), entry, (-1, 0)],
    };
    let good = is_good_record(block.kind as u32, width as u32, worth, entry.1);
    let refusal = if good { 0 } else { 3 };
    let what = "a number by the bytes of its version";
    let read = expect_read(what, &block.bytes(), refusal, record);
    if good {
        let library = read.numbers.content()[..3].to_vec();
        record.check(library == [1, worth, -1], || {
            format!("{}\n  case:    {:?}\n  library: {:?}", what, block, library)
        });
    }
}

/// A record between two good ones, with all its 64 digits.
fn write(kind: Kind, width: u8, entry: (FileNumber, u8), record: &mut Record) {
    let block = ToWrite {
        kind: kind.byte as u32,
        width: width as u32,
        unit: 0,
        numbers: vec![-1, entry.0, 1],
        rounds: vec![0, entry.1, 0],
    };
    let good = is_good_record(block.kind, block.width, entry.0, entry.1);
    let refusal = if good { 0 } else { 3 };
    expect_write("a number of 64 digits", &block, refusal, record);
}

fn each_width(mut call: impl FnMut(Kind, u8)) {
    for &kind in KINDS {
        for width in LEAST_FILE_WIDTH..=MOST_FILE_WIDTH {
            call(kind, width);
        }
    }
}

/// Both ends, beside them, and about 0, with good and bad round bytes.
pub fn ends(_: &mut Random, record: &mut Record) {
    each_width(|kind, width| {
        let half: FileNumber = 1 << (width - 1);
        let least = (kind.least)(width as i128) as FileNumber;
        let about = [least, 0, half - 1].map(|end| [end - 1, end, end + 1]);
        for number in about.concat() {
            for round in ROUNDS {
                read(kind, width, (number, round), record);
                write(kind, width, (number, round), record);
            }
        }
    });
}

/// 2^k and its like with all digits from k up, and those beside them, for every
/// digit there is: so every place for the sign is tried.
pub fn single_digits(_: &mut Random, record: &mut Record) {
    each_width(|kind, width| {
        for digit in 0..FileNumber::BITS {
            let up: FileNumber = -1 << digit;
            let power: FileNumber = 1 << digit;
            for number in [power, power.wrapping_sub(1), up, up.wrapping_sub(1)] {
                read(kind, width, (number, 0), record);
                write(kind, width, (number, 0), record);
            }
        }
    });
}

/// Every byte of a number with every value, the others all 00 or all FF.
pub fn every_byte(_: &mut Random, record: &mut Record) {
    for width in LEAST_FILE_WIDTH..=MOST_FILE_WIDTH {
        let kind = row_of_kind(width % NO_KIND);
        for place in 0..layout_of_width(width).number_bytes {
            for byte in 0..=255 {
                for others in [0, 255] {
                    let mut bytes = [others; 8];
                    bytes[place] = byte;
                    let number = FileNumber::from_le_bytes(bytes);
                    read(kind, width, (number, 0), record);
                }
            }
        }
    }
}

/// Where a program may cut a number: at the bytes of either version, at those
/// between them, and at the sizes of whole numbers in C.
const CUTS: [u32; 9] = [8, 16, 24, 31, 32, 40, 47, 48, 56];

/// Numbers that are good to a program that drops what is above some digits.
pub fn with_more_above(random: &mut Random, record: &mut Record) {
    each_width(|kind, width| {
        for _ in 0..4 {
            let (good, round) = good_record(random, kind, width);
            for cut in CUTS {
                for times in [1, -1, 3, -128, random.next() as FileNumber] {
                    let number = good.wrapping_add(times << cut);
                    write(kind, width, (number, round), record);
                    read(kind, width, (number, round), record);
                }
            }
        }
        for number in [FileNumber::MIN, FileNumber::MAX] {
            for off in -2..=2 {
                write(kind, width, (number.wrapping_add(off), 0), record);
            }
        }
    });
}
