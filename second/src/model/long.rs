//! Whole numbers of any length, as far as an import needs them: a binary64 number
//! counted in small units has over a thousand digits, and an i128 has 127.
//! Written for this program alone; it shares nothing with crates/.

use std::cmp::Ordering;

/// How many digits a part has.
const DIGITS: usize = 64;

/// The parts stand lowest first, and the highest of them is not 0; so 0 has none,
/// and it is never negative: a number is written in one way only.
#[derive(Clone, Debug, PartialEq, Eq)]
pub struct Long {
    negative: bool,
    parts: Vec<u64>,
}

impl Long {
    fn made(negative: bool, mut parts: Vec<u64>) -> Long {
        while parts.last() == Some(&0) {
            parts.pop();
        }
        Long {
            negative: negative && !parts.is_empty(),
            parts,
        }
    }

    pub fn of(number: i128) -> Long {
        let size = number.unsigned_abs();
        Long::made(number < 0, vec![size as u64, (size >> DIGITS) as u64])
    }

    /// The same number, if it is so near to 0 that one part holds it.
    pub fn number(&self) -> Option<i128> {
        let size = match self.parts[..] {
            [] => 0,
            [lowest] => lowest as i128,
            _ => return None,
        };
        Some(if self.negative { -size } else { size })
    }

    pub fn is_even(&self) -> bool {
        self.parts.first().map_or(true, |lowest| lowest % 2 == 0)
    }

    pub fn size(&self) -> Long {
        Long::made(false, self.parts.clone())
    }

    pub fn negated(&self) -> Long {
        Long::made(!self.negative, self.parts.clone())
    }

    pub fn plus(&self, other: &Long) -> Long {
        if self.negative == other.negative {
            return Long::made(self.negative, sum(&self.parts, &other.parts));
        }
        // Of unlike signs the larger takes off the smaller and keeps its sign.
        match compared(&self.parts, &other.parts) {
            Ordering::Less => Long::made(other.negative, difference(&other.parts, &self.parts)),
            _ => Long::made(self.negative, difference(&self.parts, &other.parts)),
        }
    }

    pub fn minus(&self, other: &Long) -> Long {
        self.plus(&other.negated())
    }

    /// Times 2^d: d zeros are put below the lowest digit.
    pub fn times_power(&self, d: usize) -> Long {
        let (whole, rest) = (d / DIGITS, d % DIGITS);
        let mut parts = vec![0; whole];
        let mut carried = 0;
        for &part in &self.parts {
            let moved = (part as u128) << rest;
            parts.push(moved as u64 | carried);
            carried = (moved >> DIGITS) as u64;
        }
        parts.push(carried);
        Long::made(self.negative, parts)
    }

    /// floor(number / 2^d): toward minus infinity, never toward zero.
    pub fn floor_over_power(&self, d: usize) -> Long {
        let toward_zero = Long::made(self.negative, without_low_digits(&self.parts, d));
        if self.negative && toward_zero.times_power(d) != *self {
            return toward_zero.minus(&Long::of(1));
        }
        toward_zero
    }

    /// Which of two sizes is the larger: the signs are not looked at.
    pub fn compare_sizes(&self, other: &Long) -> Ordering {
        compared(&self.parts, &other.parts)
    }
}

/// Parts that are past the end of a number count as 0.
fn part(parts: &[u64], i: usize) -> u64 {
    parts.get(i).copied().unwrap_or(0)
}

fn sum(one: &[u64], other: &[u64]) -> Vec<u64> {
    let mut parts = Vec::new();
    let mut carried = 0;
    for i in 0..one.len().max(other.len()) {
        let total = part(one, i) as u128 + part(other, i) as u128 + carried;
        parts.push(total as u64);
        carried = total >> DIGITS;
    }
    parts.push(carried as u64);
    parts
}

/// Of a larger and a smaller, or of two that are the same.
fn difference(larger: &[u64], smaller: &[u64]) -> Vec<u64> {
    let mut parts = Vec::new();
    let mut borrowed = 0;
    for i in 0..larger.len() {
        let left = larger[i] as i128 - part(smaller, i) as i128 - borrowed;
        parts.push(left as u64);
        borrowed = if left < 0 { 1 } else { 0 };
    }
    parts
}

/// Neither has a highest part of 0, so the one with more parts is the larger.
fn compared(one: &[u64], other: &[u64]) -> Ordering {
    let by_length = one.len().cmp(&other.len());
    by_length.then_with(|| one.iter().rev().cmp(other.iter().rev()))
}

fn without_low_digits(all: &[u64], d: usize) -> Vec<u64> {
    let (whole, rest) = (d / DIGITS, d % DIGITS);
    let mut parts = Vec::new();
    for i in whole..all.len() {
        let both = (part(all, i + 1) as u128) << DIGITS | part(all, i) as u128;
        parts.push((both >> rest) as u64);
    }
    parts
}
