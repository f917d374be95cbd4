//! Ways to add words, each step by the library's sum. All but the last two leave the
//! words in their order.

use super::call::compare;
use super::case::{Case, Operand};
use super::operations::SUM;
use super::random::Random;
use super::tally::Record;

/// The sum of one word or more; none if a step is refused.
pub type Grouping = fn(&mut Random, Vec<Operand>, &mut Record) -> Option<Operand>;

pub const GROUPINGS: [(&str, Grouping); 7] = [
    ("from left to right", left_to_right),
    ("from right to left", right_to_left),
    ("the larger half first", larger_half_first),
    ("two by two", two_by_two),
    ("any two neighbours", neighbours),
    ("any two words", any_two),
    ("shuffled, from left to right", shuffled),
];

/// One sum of the library's, if it is done.
pub fn step(first: Operand, second: Operand, record: &mut Record) -> Option<Operand> {
    let reply = compare(SUM, &Case::pair(first, second), record);
    match reply.refusal {
        0 => Some(Operand::of(reply.word)),
        _ => None,
    }
}

fn left_to_right(_: &mut Random, words: Vec<Operand>, record: &mut Record) -> Option<Operand> {
    let mut sum = words[0];
    for &word in &words[1..] {
        sum = step(sum, word, record)?;
    }
    Some(sum)
}

fn right_to_left(_: &mut Random, words: Vec<Operand>, record: &mut Record) -> Option<Operand> {
    let (&last, before) = words.split_last()?;
    let mut sum = last;
    for &word in before.iter().rev() {
        sum = step(word, sum, record)?;
    }
    Some(sum)
}

fn larger_half_first(_: &mut Random, words: Vec<Operand>, record: &mut Record) -> Option<Operand> {
    larger_first(&words, record)
}

fn larger_first(words: &[Operand], record: &mut Record) -> Option<Operand> {
    if let [word] = words {
        return Some(*word);
    }
    let (larger, smaller) = words.split_at(words.len().div_ceil(2));
    let first = larger_first(larger, record)?;
    let second = larger_first(smaller, record)?;
    step(first, second, record)
}

/// The first with the second, the third with the fourth, and so on; then so again with
/// what they make.
fn two_by_two(_: &mut Random, mut words: Vec<Operand>, record: &mut Record) -> Option<Operand> {
    while words.len() > 1 {
        let mut next = Vec::new();
        for pair in words.chunks(2) {
            next.push(match pair {
                [first, second] => step(*first, *second, record)?,
                _ => pair[0],
            });
        }
        words = next;
    }
    words.pop()
}

fn neighbours(
    random: &mut Random,
    mut words: Vec<Operand>,
    record: &mut Record,
) -> Option<Operand> {
    while words.len() > 1 {
        let place = random.below(words.len() as u64 - 1) as usize;
        let second = words.remove(place + 1);
        words[place] = step(words[place], second, record)?;
    }
    words.pop()
}

fn any_two(random: &mut Random, mut words: Vec<Operand>, record: &mut Record) -> Option<Operand> {
    while words.len() > 1 {
        let first = words.swap_remove(random.below(words.len() as u64) as usize);
        let second = words.swap_remove(random.below(words.len() as u64) as usize);
        words.push(step(first, second, record)?);
    }
    words.pop()
}

fn shuffled(random: &mut Random, mut words: Vec<Operand>, record: &mut Record) -> Option<Operand> {
    random.shuffle(&mut words);
    left_to_right(random, words, record)
}
