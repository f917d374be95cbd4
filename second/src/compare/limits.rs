//! The limits that the model has from documents 01 and 02, in the types that the
//! cases have; cases at an edge are told from here.

use crate::model::kinds::{kind_of, Kind, KINDS};
use crate::model::layout::{layout_for, Layout, LAYOUTS};
use crate::model::{block_sum, reading, words};

pub const LEAST_WIDTH: u32 = words::LEAST_WIDTH as u32;
pub const MOST_WIDTH: u32 = words::MOST_WIDTH as u32;
pub const LEAST_UNIT: i32 = words::LEAST_UNIT as i32;
pub const MOST_UNIT: i32 = words::MOST_UNIT as i32;

/// How many widths and units there are.
pub const WIDTHS: u64 = (MOST_WIDTH - LEAST_WIDTH + 1) as u64;
pub const UNITS: u64 = (MOST_UNIT - LEAST_UNIT + 1) as u64;

/// Two words of this width have the widest round-bit product.
pub const MIDDLE_WIDTH: u32 = (MOST_WIDTH + 1) / 2;

/// Two words of this unit pass the ends by one.
pub const MIDDLE_UNIT: i32 = (MOST_UNIT + 1) / 2;

/// The versions of a file. Their widths follow on each other, and the last has
/// the longest file.
pub const FIRST_LAYOUT: Layout = LAYOUTS[0];
pub const LAST_LAYOUT: Layout = LAYOUTS[LAYOUTS.len() - 1];
pub const LEAST_FILE_WIDTH: u8 = FIRST_LAYOUT.least_width as u8;
pub const MOST_FILE_WIDTH: u8 = LAST_LAYOUT.most_width as u8;
pub const MOST_RECORDS: usize = LAST_LAYOUT.most_records;
pub const LONGEST_FILE: usize = LAST_LAYOUT.longest_file();

/// Readings have widths of their own.
pub const MOST_READING_WIDTH: u32 = reading::MOST_WIDTH as u32;
pub const READING_WIDTHS: u64 = (MOST_READING_WIDTH - LEAST_WIDTH + 1) as u64;

/// Block sums have theirs too.
pub const MOST_BLOCK_SUM_WIDTH: u32 = block_sum::MOST_WIDTH as u32;

/// The version after the last, which is none, in its lower byte.
pub const NO_VERSION: u8 = LAYOUTS.len() as u8 + 1;

/// The layout of a width that a case has chosen.
pub fn layout_of_width(width: u8) -> Layout {
    layout_for(width as i128).expect("a width of a file")
}

/// The ends of a version's widths, and the widths beside them.
pub fn end_widths(layout: Layout) -> [u8; 4] {
    let (least, most) = (layout.least_width as u8, layout.most_width as u8);
    [least, least + 1, most - 1, most]
}

/// Those of every version.
pub fn all_end_widths() -> Vec<u8> {
    LAYOUTS.iter().copied().flat_map(end_widths).collect()
}

/// The other versions.
pub fn others(layout: Layout) -> impl Iterator<Item = Layout> {
    let is_other = move |other: &Layout| other.version != layout.version;
    LAYOUTS.iter().copied().filter(is_other)
}

/// The byte after the last kind's, which is no kind's.
pub const NO_KIND: u8 = KINDS.len() as u8;
pub const LAST_KIND: u8 = NO_KIND - 1;

/// The row of a kind that a case has chosen.
pub fn row_of_kind(byte: u8) -> Kind {
    kind_of(byte as i128).expect("a kind of the table")
}
