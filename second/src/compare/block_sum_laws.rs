//! The laws of a block sum that documents 01 and 02 state, and those that follow. They
//! are worked out here from the records, all that stand between two places at once,
//! and not step by step; the second program's sum is not asked. So the numbers stand
//! here as they stand in the documents, and not under the model's names.

use super::block_sum_case::{compare, refused, BlockSumCase};
use super::tally::Record;
use crate::model::block_sum::BlockSumAnswer;

/// Whether the answer keeps a law, and the law.
type Law = (bool, &'static str);

/// Compares a block sum, and holds the library's answer to every law.
pub fn hold(case: &BlockSumCase, record: &mut Record) -> BlockSumAnswer {
    let answer = compare(case, record);
    let totals = Totals::of(case);
    for (kept, law) in laws(case, &totals, answer) {
        record.check(kept, || {
            format!(
                "a law of block sums: {}\n  case:    {}\n  library: {:?}",
                law,
                case.describe(),
                answer
            )
        });
    }
    answer
}

fn laws(case: &BlockSumCase, totals: &Totals, answer: BlockSumAnswer) -> Vec<Law> {
    let (refusal, index) = refusal_of(case, totals);
    let mut laws = vec![
        (
            answer.refusal == refusal,
            "12, then 1, then 2, then 3, then 8, exactly where stated",
        ),
        (
            answer.index == index as i128,
            "with 3 the index of the first bad record, else 0",
        ),
    ];
    if answer.refusal != 0 {
        let blank = refused(0, 0).word;
        laws.push((answer.word == blank, "a refusal returns the blank word"));
    }
    if (answer.refusal, refusal) == (0, 0) {
        laws.extend(laws_of_done(case, totals, answer));
    }
    laws
}

fn laws_of_done(case: &BlockSumCase, totals: &Totals, answer: BlockSumAnswer) -> Vec<Law> {
    let word = answer.word;
    let count = case.numbers.len();
    let (number, ones) = totals.between(0, count);
    let format = (word.width, word.unit) == (case.width as i128, case.unit as i128);
    vec![
        (format, "it has the width and the unit that are asked for"),
        (
            word.number + word.round == number + ones,
            "its value is that of all records together",
        ),
        (
            word.round == (ones > 0) as i128,
            "its round bit is 1 exactly if some record's is",
        ),
        (
            word.number == added_up(number, ones),
            "its number is all numbers and the round bits but one",
        ),
    ]
}

/// Every round bit but one is carried into the number, if there are any: each step
/// makes one of two, and (ra and rb) is what it drops.
pub fn added_up(number: i128, ones: i128) -> i128 {
    number + (ones - 1).max(0)
}

/// The refusal, and the index that goes with it.
fn refusal_of(case: &BlockSumCase, totals: &Totals) -> (u32, usize) {
    if case.numbers.len() != case.rounds.len() {
        return (12, 0);
    }
    if case.width < 2 || case.width > 48 {
        return (1, 0);
    }
    if case.unit < -127 || case.unit > 127 {
        return (2, 0);
    }
    let half = 1 << (case.width - 1);
    let is_bad = |i: &usize| !(-half..half).contains(&case.numbers[*i]) || case.rounds[*i] > 1;
    if let Some(index) = (0..case.numbers.len()).find(is_bad) {
        return (3, index);
    }
    if steps_fit(case.width, totals, case.numbers.len()) {
        (0, 0)
    } else {
        (8, 0)
    }
}

/// Every part of the block that has a step, from its first record to the one behind
/// its last.
fn steps_fit(width: u32, totals: &Totals, count: usize) -> bool {
    let half = 1 << (width - 1);
    let mut parts = vec![(0, count)];
    while let Some((start, end)) = parts.pop() {
        if end - start < 2 {
            continue;
        }
        let (number, ones) = totals.between(start, end);
        if !(-half..half).contains(&added_up(number, ones)) {
            return false;
        }
        let middle = start + (end - start) / 2;
        parts.extend([(start, middle), (middle, end)]);
    }
    true
}

/// The numbers before each place added up, and the round bits before it.
struct Totals {
    before: Vec<(i128, i128)>,
}

impl Totals {
    fn of(case: &BlockSumCase) -> Totals {
        let mut before = vec![(0, 0)];
        let (mut number, mut ones) = (0, 0);
        for (&next, &round) in case.numbers.iter().zip(case.rounds) {
            number += next as i128;
            ones += round as i128;
            before.push((number, ones));
        }
        Totals { before }
    }

    /// Of the records from one place up to another.
    fn between(&self, start: usize, end: usize) -> (i128, i128) {
        let (first, last) = (self.before[start], self.before[end]);
        (last.0 - first.0, last.1 - first.1)
    }
}
