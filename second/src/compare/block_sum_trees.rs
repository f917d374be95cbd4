//! The law behind the block sum: any grouping of the same words, and by the
//! commutative law any order, gives the same digits and round bit whenever no step of
//! either is refused. Every step here is a sum of the library's.

use super::block_sum_case::{done, refused};
use super::block_sum_laws::{added_up, hold};
use super::block_sum_made::fits;
use super::block_sum_orders::{step, GROUPINGS};
use super::block_sum_random::{any_unit, of_digits};
use super::case::Operand;
use super::exhaustive::lists_over;
use super::limits::*;
use super::random::Random;
use super::reading_records::{Entry, Records};
use super::tally::Record;
use crate::model::block_sum::BlockSumAnswer;
use crate::model::layout::FileNumber;
use crate::model::words::{Fields, Word};

/// Width, and how many words all groupings in all orders are made of.
const ALL_ORDERS: [(u32, u32); 5] = [(2, 1), (2, 2), (2, 3), (2, 4), (3, 3)];

/// For each width of a word, and the most words that each has.
const RANDOM_BLOCKS: u64 = 80;
const MOST_COUNT: u64 = 70;

/// At least one grouping in so many is to be done, and one to be refused.
const AT_LEAST_ONE_IN: u64 = 5;

fn words_of(width: u32, unit: i32, entries: &[Entry]) -> Vec<Operand> {
    let word = |&(number, round): &Entry| Operand {
        number,
        round,
        width,
        unit,
    };
    entries.iter().map(word).collect()
}

/// What the words make together, whatever the grouping; it need not fit.
fn together(words: &[Operand]) -> Fields {
    let number = words.iter().map(|word| word.number as i128).sum();
    let ones = words.iter().map(|word| word.round as i128).sum();
    Fields {
        number: added_up(number, ones),
        round: (ones > 0) as i128,
        ..words[0].fields()
    }
}

/// One grouping's sum against what the words make, and against the library's block sum
/// if that is done too.
fn hold_alike(
    how: &str,
    words: &[Operand],
    last: Operand,
    block: BlockSumAnswer,
    record: &mut Record,
) {
    let expected = together(words);
    let as_block = block.refusal != 0 || last.fields() == block.word.fields();
    record.check(last.fields() == expected && as_block, || {
        format!(
            "a grouping, {}\n  case:    {:?}\n  library: {:?}\n  must be: {:?}\n  block:   {:?}",
            how, words, last, expected, block
        )
    });
}

/// Every two words in both orders, then those that are left with their sum, until one
/// is left: that is every grouping of every order.
fn each_last(left: &[Operand], record: &mut Record, found: &mut impl FnMut(Operand, &mut Record)) {
    if let [last] = left {
        return found(*last, record);
    }
    for first in 0..left.len() {
        for second in (0..left.len()).filter(|second| *second != first) {
            if let Some(sum) = step(left[first], left[second], record) {
                let is_left = |i: &usize| *i != first && *i != second;
                let others = (0..left.len()).filter(is_left).map(|i| left[i]);
                let next: Vec<Operand> = others.chain([sum]).collect();
                each_last(&next, record, found);
            }
        }
    }
}

/// All words of small widths.
pub fn all_orders(_: &mut Random, record: &mut Record) {
    for (width, count) in ALL_ORDERS {
        let half: FileNumber = 1 << (width - 1);
        let entries: Vec<Entry> = (-half..half).flat_map(|n| [(n, 0), (n, 1)]).collect();
        for entries in lists_over(&entries, count) {
            let block = hold(&Records::of(&entries).block(width, 0), record);
            let words = words_of(width, 0, &entries);
            each_last(&words, record, &mut |last, record| {
                hold_alike("any", &words, last, block, record)
            });
        }
    }
}

/// Small numbers, so that no step of any grouping is refused; large ones, which some
/// groupings refuse; and blocks whose halves fit, while other groupings mostly do not.
fn any_entries(random: &mut Random, width: u32, count: usize) -> Vec<Entry> {
    let no_more_than = (width as u64).saturating_sub(count.ilog2() as u64 + 2);
    let digits = match random.below(6) {
        0 | 1 => (width as u64).saturating_sub(random.below(6)).max(1),
        2 if width <= MOST_BLOCK_SUM_WIDTH => return fits(random, width, count),
        _ => 1 + random.below(no_more_than.max(1)),
    };
    let seldom = random.one_of(&[1, 2, 9, 1 << 40]);
    of_digits(random, digits, seldom, count)
}

/// Words of every width there is: of those wider than a block sum's there is none to
/// hold the groupings to, but what the words make.
pub fn random_orders(random: &mut Random, record: &mut Record) {
    let (mut all, mut whole) = (0, 0);
    for width in LEAST_WIDTH..=MOST_WIDTH {
        for _ in 0..RANDOM_BLOCKS {
            let unit = any_unit(random);
            let count = 1 + random.below(MOST_COUNT) as usize;
            let entries = any_entries(random, width, count);
            let block = hold(&Records::of(&entries).block(width, unit), record);
            let words = words_of(width, unit, &entries);
            for (how, grouping) in GROUPINGS {
                all += 1;
                if let Some(last) = grouping(random, words.clone(), record) {
                    whole += 1;
                    hold_alike(how, &words, last, block, record);
                }
            }
        }
    }
    let often = whole.min(all - whole) * AT_LEAST_ONE_IN >= all;
    record.check(often, || {
        format!("{} of {} groupings without a refusal", whole, all)
    });
}

/// The ends of every width, passed by 1 and come back from: in halves 1 and -1 come
/// together first, or the end and 1 do. One of the two ways is refused, and not the other.
pub fn one_way_only(random: &mut Random, record: &mut Record) {
    let (_, left_to_right) = GROUPINGS[0];
    for width in LEAST_WIDTH..=MOST_BLOCK_SUM_WIDTH {
        let half: FileNumber = 1 << (width - 1);
        for (numbers, in_halves) in [
            ([half - 1, 1, -1], true),
            ([-half, -1, 1], true),
            ([-1, half - 1, 1], false),
            ([1, -half, -1], false),
        ] {
            let entries = numbers.map(|number| (number, 0));
            let words = words_of(width, 0, &entries);
            let block = hold(&Records::of(&entries).block(width, 0), record);
            let in_turn = left_to_right(random, words.clone(), record);
            let number = numbers.iter().sum::<FileNumber>() as i128;
            let expected = match in_halves {
                true => done(width, 0, number, 0),
                false => refused(8, 0),
            };
            record.check(block == expected && in_turn.is_some() != in_halves, || {
                format!(
                    "one way only\n  case:    {:?}\n  library: {:?}\n  in turn: {:?}",
                    words, block, in_turn
                )
            });
        }
    }
}
