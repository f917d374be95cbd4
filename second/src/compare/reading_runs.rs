//! Readings held against each other: of two adjoining runs, of a run whose block
//! has other records outside it, of the same values in another form, and of
//! values with the other sign. All answers are the library's.

use super::exhaustive::lists_over;
use super::limits::*;
use super::random::Random;
use super::reading_case::{compare, ReadingCase};
use super::reading_laws::{broken, hold, joined, negated, refused};
use super::reading_records::{any_run, Entry, Records};
use super::tally::Record;
use crate::model::kinds::{HALF_UNIT, KINDS, PLAIN, ROUND_BIT};
use crate::model::layout::FileNumber;
use crate::model::reading::ReadingAnswer;

const RANDOM_BLOCKS: u64 = 3_000;
const MOST_COUNT: u64 = 60;

fn same(
    law: &str,
    case: &ReadingCase,
    one: ReadingAnswer,
    other: ReadingAnswer,
    record: &mut Record,
) {
    record.check(one == other, || broken(law, case, &[one, other]));
}

/// The run parted in two, so many of its records in the first.
fn parted(case: &ReadingCase, at: usize, record: &mut Record) {
    let whole = compare(case, record);
    let left = compare(&case.run(case.first, at), record);
    let right = compare(&case.run(case.first + at, case.length - at), record);
    let made = match left.refusal.max(right.refusal) {
        0 => ReadingAnswer {
            reading: joined(left.reading, right.reading),
            refusal: 0,
        },
        refusal => refused(refusal),
    };
    let law = "it is made of the readings of two adjoining runs";
    same(law, case, whole, made, record);
}

/// Records of the least width, good ones and bad ones, three in a block; then
/// random blocks.
pub fn adjoining(random: &mut Random, record: &mut Record) {
    let few = [
        (-2, 0),
        (-1, 0),
        (-1, 1),
        (0, 0),
        (1, 0),
        (1, 1),
        (2, 0),
        (0, 2),
    ];
    for entries in lists_over(&few, 3) {
        let records = Records::of(&entries);
        for kind in KINDS {
            let whole = records.whole(kind.byte as u32, LEAST_WIDTH);
            for (first, length, at) in [(0, 2, 1), (1, 2, 1), (0, 3, 1), (0, 3, 2)] {
                parted(&whole.run(first, length), at, record);
            }
        }
    }
    for _ in 0..RANDOM_BLOCKS {
        let (records, kind, width, count) = any_block(random);
        let (first, length) = any_run(random, count);
        let whole = records.whole(kind, width);
        if length > 1 {
            let at = 1 + random.below(length as u64 - 1) as usize;
            parted(&whole.run(first, length), at, record);
        }
    }
}

/// A good kind and width; one block in three has a bad record.
fn any_block(random: &mut Random) -> (Records, u32, u32, usize) {
    let kind = random.one_of(KINDS);
    let width = LEAST_WIDTH + random.below(READING_WIDTHS) as u32;
    let count = 1 + random.below(MOST_COUNT) as usize;
    let mut records = Records::good(random, kind, width, count);
    if random.once_in(3) {
        let place = random.below(count as u64) as usize;
        records.spoil(random, kind, width, place);
    }
    (records, kind.byte as u32, width, count)
}

/// Other records before the run and behind it change nothing, whatever they are,
/// and it changes nothing either if there are none.
pub fn outside(random: &mut Random, record: &mut Record) {
    for _ in 0..RANDOM_BLOCKS {
        let (mut records, kind, width, count) = any_block(random);
        let (first, length) = any_run(random, count);
        let end = first + length;
        let before = hold(&records.whole(kind, width).run(first, length), record);
        let law = "records outside the run change nothing";
        for place in (0..first).chain(end..count) {
            records.put(place, (random.next() as FileNumber, random.next() as u8));
            if place == 0 || place + 1 == first || place == end || place + 1 == count {
                let case = records.whole(kind, width).run(first, length);
                let after = compare(&case, record);
                same(law, &case, before, after, record);
            }
        }
        let whole = records.whole(kind, width);
        let alone = ReadingCase {
            numbers: &whole.numbers[first..end],
            rounds: &whole.rounds[first..end],
            ..whole.run(0, length)
        };
        let law = "it is that of the run alone";
        same(law, &alone, before, compare(&alone, record), record);
    }
}

/// A wider width has the same numbers; a plain word is worth as much as a
/// round-bit word with round bit 0.
pub fn same_values(random: &mut Random, record: &mut Record) {
    for width in LEAST_WIDTH..=MOST_READING_WIDTH {
        for &kind in KINDS {
            let records = Records::good(random, kind, width, 3);
            let case = records.whole(kind.byte as u32, width);
            let answer = hold(&case, record);
            for wider in width + 1..=MOST_READING_WIDTH {
                let case = ReadingCase {
                    width: wider,
                    ..case
                };
                let law = "a wider width changes nothing";
                same(law, &case, answer, compare(&case, record), record);
            }
            if kind.byte == PLAIN.byte {
                let kind = ROUND_BIT.byte as u32;
                let case = ReadingCase { kind, ..case };
                let law = "round bits of 0 add nothing";
                same(law, &case, answer, compare(&case, record), record);
            }
        }
    }
}

/// Sign changes are always possible: (-1-a, 1-r), and -1-w.
fn changed((number, round): Entry, kind: u32) -> Entry {
    if kind == ROUND_BIT.byte as u32 {
        (-1 - number, 1 - round)
    } else {
        (-1 - number, round)
    }
}

pub fn sign_changed(random: &mut Random, record: &mut Record) {
    for width in LEAST_WIDTH..=MOST_READING_WIDTH {
        for kind in [ROUND_BIT, HALF_UNIT] {
            for count in 1..20 {
                let mut records = Records::good(random, kind, width, count);
                let byte = kind.byte as u32;
                let (first, length) = any_run(random, count);
                let answer = hold(&records.whole(byte, width).run(first, length), record);
                for place in 0..count {
                    records.put(place, changed(records.get(place), byte));
                }
                let case = records.whole(byte, width).run(first, length);
                let expected = ReadingAnswer {
                    reading: negated(answer.reading),
                    ..answer
                };
                let law = "of the sign changes it has the other signs, and zero stays";
                same(law, &case, hold(&case, record), expected, record);
            }
        }
    }
}
