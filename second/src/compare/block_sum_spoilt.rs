//! What can be wrong with a record of a block sum. It has up to 48 digits, and what is
//! bad in every width of a reading may be good here.

use super::random::Random;
use super::reading_records::{bad_rounds, Entry, Records};
use crate::model::kinds::ROUND_BIT;
use crate::model::layout::FileNumber;

/// Numbers just outside the width and far outside it. A program that drops high digits
/// takes most of the far ones for 0 or -1.
pub fn bad_numbers(width: u32) -> Vec<FileNumber> {
    let half: FileNumber = 1 << (width - 1);
    let mut numbers = vec![half, -half - 1, 2 * half, -2 * half];
    for digits in [32, 48, 56] {
        let power = 1 << digits;
        numbers.extend([power, power - 1, -power]);
    }
    numbers.extend([FileNumber::MIN, FileNumber::MAX]);
    // 2^32 is bad in some widths only.
    numbers.retain(|number| !(-half..half).contains(number));
    numbers
}

/// A good record made bad in one way, in every way; and in both at last.
pub fn spoilt(width: u32, good: Entry) -> Vec<Entry> {
    let mut entries = Vec::new();
    entries.extend(bad_numbers(width).iter().map(|&number| (number, good.1)));
    entries.extend(bad_rounds(ROUND_BIT).map(|round| (good.0, round)));
    entries.push((FileNumber::MIN, 255));
    entries
}

/// Makes one record bad in any way.
pub fn spoil(random: &mut Random, width: u32, records: &mut Records, place: usize) {
    let entries = spoilt(width, records.get(place));
    records.put(place, random.one_of(&entries));
}
