//! The laws of the imports that document 02, Ask 6 states, and those that follow.
//! They are worked out here from the digits, in i128; the second program's import
//! is not asked. So the numbers stand here as they stand in the documents, and not
//! under the model's names.

use super::binary64_bits::{and_beside, FRACTION, INFINITY, SIGN};
use super::binary64_case::{compare_all, Binary64Case};
use super::binary64_random::{any_in_reach, any_tie};
use super::case::Reply;
use super::random::Random;
use super::tally::Record;

const TIES: u64 = 5_000;
const IN_REACH: u64 = 15_000;

/// Whether the answers keep a law, and the law.
type Law = (bool, &'static str);

/// Ties, their neighbours, and others.
pub fn of_samples(random: &mut Random, record: &mut Record) {
    for _ in 0..TIES {
        let tie = any_tie(random);
        for bits in and_beside(tie.bits) {
            hold(&tie.with_bits(bits), record);
        }
    }
    for _ in 0..IN_REACH {
        hold(&any_in_reach(random), record);
    }
}

/// Compares the imports of a finite sample of a right format and of the sample
/// with the other sign, and holds the library's answers to every law.
pub fn hold(case: &Binary64Case, record: &mut Record) {
    let here = compare_all(case, record);
    let other = compare_all(&case.with_bits(case.bits ^ SIGN), record);
    let mut laws = laws_of_signs(case, here, other);
    if let Some(count) = count(case) {
        laws.extend(laws_of_count(count, case.width, here));
    }
    for (kept, law) in laws {
        record.check(kept, || {
            format!(
                "a law of imports: {}\n  case:    {}\n  library: {:?}\n  other sign: {:?}",
                law,
                case.describe(),
                here,
                other
            )
        });
    }
}

fn laws_of_signs(case: &Binary64Case, here: [Reply; 3], other: [Reply; 3]) -> Vec<Law> {
    let mut laws = vec![(
        here[1] == here[0] && here[1].word.round == 0,
        "round-bit's is plain's with round bit 0",
    )];
    let both_done = |i: usize| here[i].refusal == 0 && other[i].refusal == 0;
    let sum = |i: usize| here[i].word.number + other[i].word.number;
    for i in [0, 1] {
        if both_done(i) {
            laws.push((sum(i) == 0, "the other sign has the number's other sign"));
        }
    }
    if both_done(2) {
        // w + 1/2 and v + 1/2 add up to w + v + 1.
        laws.push(match whole_and_even(case) {
            None => (sum(2) + 1 == 0, "no tie, and the values add up to 0"),
            Some(true) => (sum(2) + 1 == 1, "an even count, and they add up to 1"),
            Some(false) => (sum(2) + 1 == -1, "an odd count, and they add up to -1"),
        });
    }
    laws
}

/// A finite sample is so many times 2^exponent.
fn times_and_exponent(bits: u64) -> (i128, i32) {
    let fraction = (bits & FRACTION) as i128;
    let (size, exponent) = match (bits & INFINITY) >> 52 {
        0 => (fraction, -1074),
        stored => (1 << 52 | fraction, stored as i32 - 1075),
    };
    (if bits & SIGN == 0 { size } else { -size }, exponent)
}

/// Whether the count of units is even, if it is whole: by the place of the lowest
/// digit that is 1. Zero is even.
fn whole_and_even(case: &Binary64Case) -> Option<bool> {
    let (times, exponent) = times_and_exponent(case.bits);
    if times == 0 {
        return Some(true);
    }
    let lowest = exponent - case.unit + times.trailing_zeros() as i32;
    (lowest >= 0).then_some(lowest > 0)
}

/// A count of units is parts / 2^places.
#[derive(Clone, Copy)]
struct Count {
    parts: i128,
    places: i32,
}

/// If an i128 has room for it and for every number of a word with as many places.
fn count(case: &Binary64Case) -> Option<Count> {
    let (times, exponent) = times_and_exponent(case.bits);
    let places = case.unit - exponent;
    match places {
        0..=60 => Some(Count {
            parts: times,
            places,
        }),
        -60..=-1 => Some(Count {
            parts: times << -places,
            places: 0,
        }),
        _ => None,
    }
}

fn laws_of_count(count: Count, width: u32, here: [Reply; 3]) -> Vec<Law> {
    // All in half units, times 2^places.
    let value = 2 * count.parts;
    let of_halves = |halves: i128| halves << count.places;
    let half_unit = of_halves(1);
    // An end is as far as -2^(n-1) or 2^(n-1) units, or half a unit off.
    let ends = 1 << width;
    let whole_fits = of_halves(-ends - 1) <= value && value < of_halves(ends - 1);
    let half_odd_fits = of_halves(-ends) <= value && value < of_halves(ends);
    let mut laws = Vec::new();
    for (i, fits, more) in [
        (0, whole_fits, 0),
        (1, whole_fits, 0),
        (2, half_odd_fits, 1),
    ] {
        let refusal = if fits { 0 } else { 8 };
        laws.push((
            here[i].refusal == refusal,
            "8 exactly where the nearest is past its width",
        ));
        if (here[i].refusal, refusal) == (0, 0) {
            let number = here[i].word.number;
            let off = (of_halves(2 * number + more) - value).abs();
            laws.push((off <= half_unit, "within half a unit"));
            let is_tie = off == half_unit;
            laws.push((!is_tie || number % 2 == 0, "a tie goes to the even number"));
        }
    }
    laws
}
