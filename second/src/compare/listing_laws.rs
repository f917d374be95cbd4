//! Listings held to what documents 01 and 02 say of them: as many lines as records
//! and one more, with the numbers of the records in them; none longer than the
//! header says; and 12 before all else for input that is longer than any file. The
//! second program is not asked, so the numbers stand here as they stand there.

use super::blocks::{self, file_text, Block};
use super::limits::*;
use super::listings::{beginning, compare_listing, printed_number, ENOUGH};
use super::random::Random;
use super::tally::Record;
use crate::model::kinds::{Kind, KINDS};
use crate::model::layout::LAYOUTS;
use crate::model::listing;

fn list(file: &[u8], room: usize, record: &mut Record) -> Vec<u8> {
    compare_listing(file, &listing::listing(file), room, record)
}

/// The lines of a good block, by its records.
fn lines(block: &Block) -> Vec<String> {
    let name = ["PLAIN", "RN", "HUB"][block.kind as usize];
    let head = format!("{} {} {} {}", name, block.width, block.unit, block.count);
    let mut lines = vec![head];
    for (index, &(number, round)) in block.records.iter().enumerate() {
        let value = match block.kind {
            0 => 2 * number,
            1 => 2 * (number + round as i64),
            _ => 2 * number + 1,
        };
        lines.push(format!("{} {} {} {}", index, number, round, value));
    }
    lines
}

/// Whether the library's text has these lines, each ended by a line feed.
fn expect_lines(block: &Block, room: usize, record: &mut Record) -> Vec<u8> {
    let file = block.bytes();
    let text = list(&file, room, record);
    let expected: String = lines(block)
        .iter()
        .map(|line| line.clone() + "\n")
        .collect();
    record.check(text == expected.as_bytes(), || {
        format!(
            "the lines of a listing\n  case:    {}\n  library: {} bytes {:?}\n  must be: {} bytes {:?}",
            file_text(&file),
            text.len(),
            beginning(&text),
            expected.len(),
            beginning(expected.as_bytes())
        )
    });
    text
}

/// The ends, about 0, and numbers on either side of a byte, in every kind.
pub fn every_width(random: &mut Random, record: &mut Record) {
    for &kind in KINDS {
        for width in LEAST_FILE_WIDTH..=MOST_FILE_WIDTH {
            let mut block = blocks::good(random, kind, width, -(width as i8), 20);
            let half = 1 << (width - 1);
            let ends = [-half, half - 1, -1, 0, 1, half >> 1, -(half >> 1) - 1];
            for (place, number) in ends.iter().enumerate() {
                block.records[place].0 = *number;
            }
            expect_lines(&block, ENOUGH, record);
            expect_lines(&block, 1_200, record);
        }
    }
}

/// The most records, each with the longest line that its kind and width have.
fn longest_of(kind: Kind, width: u8) -> Block {
    let least = -1 << (width - 1);
    Block {
        layout: layout_of_width(width),
        kind: kind.byte as u8,
        width,
        unit: -127,
        count: 8_000,
        records: vec![(least, 0); 8_000],
    }
}

/// No listing takes more than the header says, and the longest nearly as much:
/// plain words of width 48, where only the indices under 1,000 are shorter.
pub fn longest(record: &mut Record) {
    for &kind in KINDS {
        for width in all_end_widths() {
            let text = expect_lines(&longest_of(kind, width), ENOUGH, record);
            record.check(text.len() <= 328_019, || {
                format!("a listing of {} bytes", text.len())
            });
        }
    }
    record.check(ENOUGH == 328_019, || {
        format!("the longest lines take {} bytes", ENOUGH)
    });
    let text = expect_lines(&longest_of(KINDS[0], 48), ENOUGH, record);
    let shorter = 900 + 2 * 90 + 3 * 10;
    record.check(text.len() == 328_019 - shorter, || {
        format!("the longest listing: {} bytes", text.len())
    });
}

fn expect_number(file: &[u8], refusal: u32, record: &mut Record) {
    let text = list(file, ENOUGH, record);
    record.check(printed_number(&text) == refusal, || {
        format!(
            "the longest input\n  case:    {}\n  library: {:?}\n  must be: {}",
            file_text(file),
            beginning(&text),
            refusal
        )
    });
}

/// "input longer than any good file is 12, before all else": 56,013 bytes are,
/// and 40,013 are not, though no file of version 1 is as long.
pub fn too_long(record: &mut Record) {
    for &layout in LAYOUTS {
        let good = longest_of(KINDS[1], layout.most_width as u8).bytes();
        for length in [
            40_012,
            40_013,
            40_017,
            56_011,
            56_012,
            56_013,
            56_019,
            1 << 17,
        ] {
            for mark in [b"RNB", b"XNB"] {
                for version in [1, 2, 3] {
                    let mut file = good.clone();
                    file.resize(length, 0);
                    file[..3].copy_from_slice(mark);
                    file[3] = version;
                    let length_is_good = [(1, 40_012), (2, 56_012)].contains(&(version, length));
                    let refusal = if length > 56_012 {
                        12
                    } else if mark == b"XNB" || version == 3 {
                        11
                    } else if !length_is_good {
                        12
                    } else if version != layout.version as u8 {
                        1
                    } else {
                        0
                    };
                    expect_number(&file, refusal, record);
                }
            }
        }
    }
}
