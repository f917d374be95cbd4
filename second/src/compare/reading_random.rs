//! Readings of random blocks, and of blocks that are longer than a file's.

use super::limits::*;
use super::random::Random;
use super::reading_case::{compare, ReadingCase};
use super::reading_laws::hold;
use super::reading_records::{any_run, Entry, Records};
use super::tally::Record;
use crate::model::kinds::{Kind, KINDS};
use crate::model::layout::FileNumber;

const SHORT_BLOCKS: u64 = 40_000;
const MOST_COUNT: u64 = 20;

const THOUSANDS: u64 = 200;
const MOST_OF_THOUSANDS: u64 = 4_000;
const RUNS: usize = 8;

/// A file ends at the first; in 16 digits the later ones are few.
const LONG_COUNTS: [usize; 7] = [
    MOST_RECORDS,
    MOST_RECORDS + 1,
    20_000,
    65_535,
    65_536,
    65_537,
    100_000,
];

fn any_width(random: &mut Random) -> u32 {
    match random.below(6) {
        0 => random.one_of(&[LEAST_WIDTH, LEAST_WIDTH + 1]),
        1 => random.one_of(&[MOST_READING_WIDTH - 1, MOST_READING_WIDTH]),
        _ => LEAST_WIDTH + random.below(READING_WIDTHS) as u32,
    }
}

/// Half of them have nothing wrong, a quarter a bad record, a quarter a kind, a
/// width, a length or a run that may be anything.
pub fn short_blocks(random: &mut Random, record: &mut Record) {
    for _ in 0..SHORT_BLOCKS {
        let (kind, width) = (random.one_of(KINDS), any_width(random));
        let count = 1 + random.below(MOST_COUNT) as usize;
        let mut records = Records::good(random, kind, width, count);
        let (first, length) = any_run(random, count);
        let spoil = random.below(4);
        if spoil == 0 {
            let place = random.below(count as u64) as usize;
            records.spoil(random, kind, width, place);
        }
        let case = records.whole(kind.byte as u32, width).run(first, length);
        let case = match spoil {
            1 => anything(random, case),
            _ => case,
        };
        hold(&case, record);
    }
}

fn anything<'a>(random: &mut Random, mut case: ReadingCase<'a>) -> ReadingCase<'a> {
    let count = case.numbers.len() as u64;
    match random.below(6) {
        0 => case.kind = random.next() as u32 >> random.below(32),
        1 => case.width = random.next() as u32 >> random.below(32),
        2 => case.first = random.next() as usize >> random.below(64),
        3 => case.length = random.next() as usize >> random.below(64),
        4 => case = case.of_lengths(case.numbers.len(), random.below(count) as usize),
        _ => case = case.of_lengths(random.below(count) as usize, case.rounds.len()),
    }
    case
}

/// Numbers all over the width, but for the lowest and the highest of it.
fn between_the_ends(random: &mut Random, kind: Kind, width: u32, count: usize) -> Records {
    let least = (kind.least)(width as i128) as FileNumber;
    let most = (1 << (width - 1)) - 1;
    let entries: Vec<Entry> = (0..count)
        .map(|_| {
            let above = 1 + random.below((most - least - 1) as u64) as FileNumber;
            let round = random.below(kind.most_round as u64 + 1) as u8;
            // At the end a round bit would reach the highest.
            let room_for_round = least + above < most - 1;
            (least + above, if room_for_round { round } else { 0 })
        })
        .collect();
    Records::of(&entries)
}

/// Blocks of up to some thousand records, with random runs.
pub fn thousands(random: &mut Random, record: &mut Record) {
    for _ in 0..THOUSANDS {
        let (kind, width) = (random.one_of(KINDS), any_width(random));
        let count = 1 + random.below(MOST_OF_THOUSANDS) as usize;
        let mut records = between_the_ends(random, kind, width, count);
        if random.once_in(2) {
            let place = random.below(count as u64) as usize;
            records.spoil(random, kind, width, place);
        }
        let whole = records.whole(kind.byte as u32, width);
        for _ in 0..RUNS {
            let (first, length) = any_run(random, count);
            hold(&whole.run(first, length), record);
        }
    }
}

/// The lowest, the highest and a bad record, each in a place where a count could
/// go wrong or in any, with runs that end and begin there.
pub fn long_blocks(random: &mut Random, record: &mut Record) {
    for count in LONG_COUNTS {
        for &kind in KINDS {
            let width = random.one_of(&[12, 20, MOST_READING_WIDTH]);
            let mut records = between_the_ends(random, kind, width, count);
            let whole = records.whole(kind.byte as u32, width);
            hold(&whole, record);
            for run in [(0, count + 1), (count - 1, 1), (count - 1, 2), (count, 1)] {
                compare(&whole.run(run.0, run.1), record);
            }
            let any = random.below(count as u64) as usize;
            let least = (kind.least)(width as i128) as FileNumber;
            let most = ((1 << (width - 1)) - 1, kind.most_round as u8);
            for place in [0, count - 1, MOST_RECORDS - 1, any] {
                for entry in [(least, 0), most, (FileNumber::MIN, 0)] {
                    let good = records.get(place);
                    records.put(place, entry);
                    about(&records, kind, width, place, count, record);
                    records.put(place, good);
                }
            }
        }
    }
}

/// All of the block, and the runs that end or begin at the place or beside it.
fn about(
    records: &Records,
    kind: Kind,
    width: u32,
    place: usize,
    count: usize,
    record: &mut Record,
) {
    let whole = records.whole(kind.byte as u32, width);
    compare(&whole, record);
    compare(&whole.run(place, 1), record);
    compare(&whole.run(place, count - place), record);
    compare(&whole.run(place + 1, count - place - 1), record);
    compare(&whole.run(0, place), record);
    compare(&whole.run(0, place + 1), record);
}
