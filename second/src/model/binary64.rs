//! Document 02, Ask 6: the samples of the new digitiser. What 64 bits mean as an
//! IEEE 754 binary64 number, and the import of one to a word of each kind. All
//! of it is done in whole numbers, however long they get; no floating-point
//! number has a part in it.
//! Written from documents 01 and 02 and the standard alone; it shares nothing
//! with crates/.

use super::causes::*;
use super::digits::{floor, power};
use super::kinds::Kind;
use super::long::Long;
use super::round_bit::with_round_bit_0;
use super::words::*;
use std::cmp::Ordering;

/// 1 digit of sign stands above 11 of exponent, and these above 52 of fraction.
const SIGN_AT: i128 = 63;
const FRACTION_DIGITS: i128 = 52;
const EXPONENT_DIGITS: i128 = 11;

/// What is added to an exponent before it is stored.
const BIAS: i128 = 1023;

/// A finite number: so many times 2^exponent.
struct Sample {
    times: i128,
    exponent: i128,
}

/// The pattern of sign s, stored exponent E and fraction F is worth
///   (-1)^s * 2^(E - 1023) * (1 + F / 2^52), where E is 1 to 2046;
///   (-1)^s * 2^(1 - 1023) * (F / 2^52), where E is 0: subnormals and zeros.
/// Where E is 2047 it is an infinity or a not-a-number, and None.
fn meaning(bits: u64) -> Option<Sample> {
    let bits = bits as i128;
    let sign = floor(bits, SIGN_AT);
    let stored = floor(bits, FRACTION_DIGITS) % power(EXPONENT_DIGITS);
    let fraction = bits % power(FRACTION_DIGITS);
    if stored == power(EXPONENT_DIGITS) - 1 {
        return None;
    }
    // Both lines times 2^52, so that they are whole.
    let (size, exponent) = if stored == 0 {
        (fraction, 1 - BIAS)
    } else {
        (power(FRACTION_DIGITS) + fraction, stored - BIAS)
    };
    Some(Sample {
        // The negative zero is 0 times something, as the positive one is.
        times: if sign == 1 { -size } else { size },
        exponent: exponent - FRACTION_DIGITS,
    })
}

/// A count of units, with nothing lost: parts / 2^places of them.
struct Count {
    parts: Long,
    places: usize,
}

impl Count {
    fn of(sample: Sample, unit: i128) -> Count {
        // times * 2^exponent / 2^unit
        let exponent = sample.exponent - unit;
        let times = Long::of(sample.times);
        if exponent >= 0 {
            Count {
                parts: times.times_power(exponent as usize),
                places: 0,
            }
        } else {
            Count {
                parts: times,
                places: -exponent as usize,
            }
        }
    }

    fn floor(&self) -> Long {
        self.parts.floor_over_power(self.places)
    }

    /// How far the count is from a number of half units, in parts of half a unit.
    fn distance(&self, half_units: &Long) -> Long {
        let twice = self.parts.times_power(1);
        twice.minus(&half_units.times_power(self.places)).size()
    }
}

/// The candidate whose value is nearest to the count; of two that are as near, the
/// even one, which has the lowest digit clear. A value is told in half units.
fn nearest(count: &Count, candidates: &[Long], value: fn(&Long) -> Long) -> Long {
    let mut best = &candidates[0];
    let mut least = count.distance(&value(best));
    for candidate in &candidates[1..] {
        let distance = count.distance(&value(candidate));
        let is_nearer = match distance.compare_sizes(&least) {
            Ordering::Less => true,
            Ordering::Equal => candidate.is_even(),
            Ordering::Greater => false,
        };
        if is_nearer {
            best = candidate;
            least = distance;
        }
    }
    best.clone()
}

/// "the nearest whole count of units, a tie going to the even count": it is the
/// floor or the number after it.
fn nearest_whole(count: &Count) -> Long {
    let floor = count.floor();
    let candidates = [floor.clone(), floor.plus(&Long::of(1))];
    nearest(count, &candidates, |number| number.times_power(1))
}

/// "the nearest half-odd count, a tie going to the one with the lower digit
/// clear": w + 1/2, so 2w + 1 half units. Of the floor and its neighbours one is
/// the nearest w, wherever within its unit the count lies.
fn nearest_half_odd(count: &Count) -> Long {
    let floor = count.floor();
    let one = Long::of(1);
    let candidates = [floor.minus(&one), floor.clone(), floor.plus(&one)];
    nearest(count, &candidates, |number| {
        number.times_power(1).plus(&Long::of(1))
    })
}

/// 1, 2, 15, 8. The tie is settled before the width is asked for.
fn import<W: Word>(bits: u64, width: i128, unit: i128, nearest: fn(&Count) -> Long) -> Answer<W> {
    let refusal = causes_of_operand(width, unit);
    if refusal != DONE {
        return Answer::refused(refusal);
    }
    let sample = match meaning(bits) {
        Some(sample) => sample,
        None => return Answer::refused(NOT_FINITE),
    };
    match in_width(nearest(&Count::of(sample, unit)), W::KIND, width) {
        Some(number) => Answer::done(W::made(Fields {
            number,
            round: 0,
            width,
            unit,
        })),
        None => Answer::refused(ANSWER_DOES_NOT_FIT),
    }
}

fn in_width(number: Long, kind: Kind, width: i128) -> Option<i128> {
    number.number().filter(|&number| kind.fits(number, width))
}

pub fn to_plain(bits: u64, width: i128, unit: i128) -> Answer<Plain> {
    import(bits, width, unit, nearest_whole)
}

/// "round-bit gets round bit 0".
pub fn to_round_bit(bits: u64, width: i128, unit: i128) -> Answer<RoundBit> {
    let plain = to_plain(bits, width, unit);
    match plain.refusal {
        DONE => Answer::done(with_round_bit_0(plain.word)),
        refusal => Answer::refused(refusal),
    }
}

pub fn to_half_unit(bits: u64, width: i128, unit: i128) -> Answer<HalfUnit> {
    import(bits, width, unit, nearest_half_odd)
}
