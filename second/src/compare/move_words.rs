//! First words for runs of cuts and sign changes. What the cuts drop seldom lies at an
//! edge by chance, so there it is put on purpose.

use super::case::Operand;
use super::limits::*;
use super::move_case::Moved;
use super::random::Random;
use super::random_cases::any_narrower;

/// A right word of this width and unit, for moves that cut by this depth together.
pub fn right_word(random: &mut Random, kind: &Moved, width: u32, unit: i32, depth: u64) -> Operand {
    let half = 1i64 << (width - 1);
    let number = match random.below(8) {
        0 => random.one_of(&[-half, -half + 1, -1, 0, half - 2, half - 1]),
        1 => any_narrower(random, width) as i64,
        2..=4 => at_an_edge(random, width, depth),
        _ => random.next() as i64 >> (64 - width),
    };
    Operand {
        number,
        round: round(random, kind),
        width,
        unit,
    }
}

/// Half-unit words have none.
fn round(random: &mut Random, kind: &Moved) -> u8 {
    if kind.has_round_bit {
        random.below(2) as u8
    } else {
        0
    }
}

/// The dropped digits are all 0 or all 1, where half-unit words move farthest, or a 1
/// before zeros or a 0 before ones, where round-bit words do.
fn at_an_edge(random: &mut Random, width: u32, depth: u64) -> i64 {
    // A cut that is too deep drops as much as may be dropped.
    let depth = depth.min((width - LEAST_WIDTH) as u64) as u32;
    let floor = any_narrower(random, width - depth) as i64;
    let unit = 1i64 << depth;
    let above = random.one_of(&[0, unit / 2 - 1, unit / 2, unit - 1]);
    // At depth 0 nothing is dropped, and there is nothing above the floor.
    (floor << depth) + above.clamp(0, unit - 1)
}

/// A unit that such a depth leaves in range, often the first or the last of them.
pub fn unit_for(random: &mut Random, depth: u64) -> i32 {
    let last = MOST_UNIT - depth as i32;
    match random.below(4) {
        0 => LEAST_UNIT,
        1 => last,
        _ => LEAST_UNIT + random.below(UNITS - depth) as i32,
    }
}

/// A word with a cause 1, 2 or 3, or with several of them.
pub fn wrong_word(random: &mut Random, kind: &Moved, width: u32) -> Operand {
    let unit = unit_for(random, 0);
    let mut word = right_word(random, kind, width, unit, 0);
    for _ in 0..1 + random.below(3) {
        spoil(random, kind, &mut word);
    }
    word
}

/// Nothing spoilt is ever made good by another. Some of these are right to a program
/// that drops digits.
fn spoil(random: &mut Random, kind: &Moved, word: &mut Operand) {
    let half = 1i64 << (word.width.clamp(LEAST_WIDTH, MOST_WIDTH) - 1);
    match random.below(if kind.has_round_bit { 4 } else { 3 }) {
        0 => {
            let widths = [
                0,
                LEAST_WIDTH - 1,
                MOST_WIDTH + 1,
                256 + LEAST_WIDTH,
                u32::MAX,
            ];
            word.width = random.one_of(&widths);
        }
        1 => {
            let units = [LEAST_UNIT - 1, MOST_UNIT + 1, 256, i32::MIN, i32::MAX];
            word.unit = random.one_of(&units);
        }
        2 => word.number = random.one_of(&[-half - 1, half, i64::MIN, i64::MAX]),
        _ => word.round = random.one_of(&[2, 3, 128, 254, 255]),
    }
}
