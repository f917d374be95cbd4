//! Records to lend for readings and block sums: good ones, and what can be wrong with one.

use super::block_sum_case::BlockSumCase;
use super::blocks::good_record;
use super::lent::Lent;
use super::random::Random;
use super::reading_case::ReadingCase;
use crate::model::digits::power;
use crate::model::kinds::Kind;
use crate::model::layout::FileNumber;

/// A number and its round byte.
pub type Entry = (FileNumber, u8);

/// Both lie between margins that hold a pattern: a record that is looked for
/// outside the block is mostly a bad one.
#[derive(Clone)]
pub struct Records {
    numbers: Lent<FileNumber>,
    rounds: Lent<u8>,
}

impl Records {
    pub fn of(entries: &[Entry]) -> Records {
        let salt = entries.len() as u64;
        let numbers: Vec<FileNumber> = entries.iter().map(|entry| entry.0).collect();
        let rounds: Vec<u8> = entries.iter().map(|entry| entry.1).collect();
        Records {
            numbers: Lent::holding_numbers(&numbers, salt),
            rounds: Lent::holding_bytes(&rounds, salt),
        }
    }

    pub fn good(random: &mut Random, kind: Kind, width: u32, count: usize) -> Records {
        let entries: Vec<Entry> = (0..count)
            .map(|_| good_record(random, kind, width as u8))
            .collect();
        Records::of(&entries)
    }

    pub fn get(&self, place: usize) -> Entry {
        (self.numbers.content()[place], self.rounds.content()[place])
    }

    pub fn put(&mut self, place: usize, (number, round): Entry) {
        self.numbers.lend()[place] = number;
        self.rounds.lend()[place] = round;
    }

    /// Makes one record bad in any way.
    pub fn spoil(&mut self, random: &mut Random, kind: Kind, width: u32, place: usize) {
        let entries = spoilt(kind, width, self.get(place));
        self.put(place, random.one_of(&entries));
    }

    /// The block of them all, and all of it as the run.
    pub fn whole(&self, kind: u32, width: u32) -> ReadingCase<'_> {
        ReadingCase {
            kind,
            width,
            numbers: self.numbers.content(),
            rounds: self.rounds.content(),
            first: 0,
            length: self.numbers.room(),
        }
    }

    /// The block of them all, to be added.
    pub fn block(&self, width: u32, unit: i32) -> BlockSumCase<'_> {
        BlockSumCase {
            width,
            unit,
            numbers: self.numbers.content(),
            rounds: self.rounds.content(),
        }
    }
}

/// A run within so many records, at least one; often all of them, or one alone.
pub fn any_run(random: &mut Random, count: usize) -> (usize, usize) {
    let first = random.below(count as u64) as usize;
    match random.below(6) {
        0 => (0, count),
        1 => (first, 1),
        2 => (first, count - first),
        3 => (0, first + 1),
        _ => (first, 1 + random.below((count - first) as u64) as usize),
    }
}

/// Numbers just outside the width and far outside it. A program that drops high
/// digits takes all but the first two for 0 or -1, those after the first four if
/// it keeps 32 digits.
pub fn bad_numbers(kind: Kind, width: u32) -> [FileNumber; 9] {
    let width = width as i128;
    [
        power(width - 1) as FileNumber,
        ((kind.least)(width) - 1) as FileNumber,
        power(width) as FileNumber,
        -power(width) as FileNumber,
        power(32) as FileNumber,
        -power(32) as FileNumber,
        power(32) as FileNumber - 1,
        FileNumber::MIN,
        FileNumber::MAX,
    ]
}

/// A program that drops high digits takes the middle two for 0, the last for 1.
pub fn bad_rounds(kind: Kind) -> [u8; 4] {
    [kind.most_round as u8 + 1, 128, 254, 255]
}

/// A good record made bad in one way, in every way; and in both at last.
pub fn spoilt(kind: Kind, width: u32, good: Entry) -> Vec<Entry> {
    let mut entries = Vec::new();
    entries.extend(bad_numbers(kind, width).map(|number| (number, good.1)));
    entries.extend(bad_rounds(kind).map(|round| (good.0, round)));
    entries.push((FileNumber::MIN, 255));
    entries
}
