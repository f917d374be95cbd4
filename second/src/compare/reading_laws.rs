//! The laws of a reading that document 02, Ask 4 states, and those that follow.
//! They are worked out here from the records, and in floating point where the
//! model has bits; the second program's reading is not asked. So the numbers stand
//! here as they stand in the documents, and not under the model's names.

use super::reading_case::{compare, described, ReadingCase};
use super::tally::Record;
use crate::model::reading::{Reading, ReadingAnswer};
use std::ops::Range;

/// Whether the answer keeps a law, and the law.
type Law = (bool, &'static str);

/// Compares a reading, and holds the library's answer to every law.
pub fn hold(case: &ReadingCase, record: &mut Record) -> ReadingAnswer {
    let answer = compare(case, record);
    for (kept, law) in laws(case, answer) {
        record.check(kept, || broken(law, case, &[answer]));
    }
    answer
}

/// What is told of a law that one answer breaks, or several together.
pub fn broken(law: &str, case: &ReadingCase, library: &[ReadingAnswer]) -> String {
    let mut text = format!("a law of readings: {}\n  case:    {}", law, case.describe());
    for answer in library {
        text += &format!("\n  library: {}", described(*answer));
    }
    text
}

fn laws(case: &ReadingCase, answer: ReadingAnswer) -> Vec<Law> {
    let refusal = refusal_of(case);
    let mut laws = vec![(
        answer.refusal == refusal,
        "12, then 1, then 14, then 3, exactly where stated",
    )];
    if answer.refusal != 0 {
        let zeros = bits(answer.reading) == [0; 3];
        laws.push((zeros, "a refusal gives three positive zeros"));
    }
    if (answer.refusal, refusal) == (0, 0) {
        laws.extend(laws_of_done(&values(case), answer.reading));
    }
    laws
}

fn bits(reading: Reading) -> [u32; 3] {
    [reading.lowest, reading.highest, reading.first]
}

fn refusal_of(case: &ReadingCase) -> u32 {
    if case.kind > 2 || case.numbers.len() != case.rounds.len() {
        return 12;
    }
    if case.width < 2 || case.width > 24 {
        return 1;
    }
    let mut run = match run(case) {
        Some(run) => run,
        None => return 14,
    };
    if run.all(|i| is_good(case, i)) {
        0
    } else {
        3
    }
}

/// The indices of the run's records, if it has some and they are the block's.
fn run(case: &ReadingCase) -> Option<Range<usize>> {
    let end = case.first.checked_add(case.length)?;
    let good = case.length > 0 && end <= case.numbers.len();
    good.then_some(case.first..end)
}

fn is_good(case: &ReadingCase, i: usize) -> bool {
    let half = 1 << (case.width - 1);
    let most_round = if case.kind == 1 { 1 } else { 0 };
    (-half..half).contains(&case.numbers[i]) && case.rounds[i] <= most_round
}

/// In half units: 2x, 2(a + r), 2w + 1.
fn values(case: &ReadingCase) -> Vec<i64> {
    let value = |i: usize| match case.kind {
        0 => 2 * case.numbers[i] as i64,
        1 => 2 * (case.numbers[i] as i64 + case.rounds[i] as i64),
        _ => 2 * case.numbers[i] as i64 + 1,
    };
    (case.first..case.first + case.length).map(value).collect()
}

fn laws_of_done(values: &[i64], reading: Reading) -> Vec<Law> {
    let whole = bits(reading).iter().all(|&bits| is_whole_count(bits));
    let [lowest, highest, first] = bits(reading).map(count);
    let lowest_of_all = values.iter().all(|&value| lowest <= value);
    let highest_of_all = values.iter().all(|&value| value <= highest);
    vec![
        (whole, "each is a whole count, and zero the positive zero"),
        (lowest_of_all, "no value is under the lowest"),
        (highest_of_all, "no value is over the highest"),
        (values.contains(&lowest), "the lowest is a value of the run"),
        (
            values.contains(&highest),
            "the highest is a value of the run",
        ),
        (first == values[0], "the first is the run's first value"),
    ]
}

/// What a number is worth, if that is whole; a cast goes toward zero.
fn count(bits: u32) -> i64 {
    f32::from_bits(bits) as i64
}

/// So the cast lost nothing; the negative zero comes back as the positive one.
fn is_whole_count(bits: u32) -> bool {
    (count(bits) as f32).to_bits() == bits
}

/// What a refusal answers.
pub fn refused(refusal: u32) -> ReadingAnswer {
    let reading = Reading {
        lowest: 0,
        highest: 0,
        first: 0,
    };
    ReadingAnswer { reading, refusal }
}

/// The reading of two adjoining runs, made from the readings of each.
pub fn joined(left: Reading, right: Reading) -> Reading {
    let number = f32::from_bits;
    Reading {
        lowest: if number(right.lowest) < number(left.lowest) {
            right.lowest
        } else {
            left.lowest
        },
        highest: if number(right.highest) > number(left.highest) {
            right.highest
        } else {
            left.highest
        },
        first: left.first,
    }
}

/// The reading when every value has the other sign; zero stays the positive zero.
pub fn negated(reading: Reading) -> Reading {
    let other_sign = |bits: u32| (0.0 - f32::from_bits(bits)).to_bits();
    Reading {
        lowest: other_sign(reading.highest),
        highest: other_sign(reading.lowest),
        first: other_sign(reading.first),
    }
}
