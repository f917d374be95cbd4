//! Runs of cuts and sign changes worked by hand from document 01. Here both programs
//! are held against these answers, not only against each other; so the numbers stand
//! here as they stand there, and not under the model's names.

use super::case::{Operand, Reply};
use super::move_case::{described, End, Moved, HALF_UNIT, ROUND_BIT};
use super::move_laws::hold;
use super::random::Random;
use super::tally::Record;
use crate::model::moves::Move::{self, Cut, SignChange};

/// Width, number and round bit at first, the moves, their depths together, number and
/// round bit at last. Half-unit words have round bit 0.
pub type Line = (u32, (i64, u8), &'static [Move], u32, (i64, u8));

/// What each move answers stands above its line, then the cut by all depths at once.
#[rustfmt::skip] // one line by hand, one line here
const ROUND_BITS: &[Line] = &[
    // No move.
    (4, (5, 1), &[], 0, (5, 1)),
    // -1-5 and 1-1: value 6, then -6.
    (5, (5, 1), &[SignChange], 0, (-6, 0)),
    // (-6,0), then -1+6 and 1-0.
    (5, (5, 1), &[SignChange, SignChange], 0, (5, 1)),
    // 39 is odd: -1-1 and 1-1.
    (2, (1, 1), &[SignChange; 39], 0, (-2, 0)),
    // Depth 0 returns the word, its round bit too.
    (5, (5, 1), &[Cut(0), SignChange, Cut(0)], 0, (-6, 0)),
    // 4 is 00100: 2 and digit 0, then -1-2 and 1-0.
    (5, (4, 0), &[Cut(1), SignChange], 1, (-3, 1)),
    // 11 is 01011: (5,1). (-6,0). -3, and digit 0 of -6. At once 2 and digit 1: (2,1), so (-3,0).
    (5, (11, 1), &[Cut(1), SignChange, Cut(1)], 2, (-3, 0)),
    // (3,0). (-4,1). -2, and digit 0 of -4 is 0. At once 1 and digit 0 of 3: (1,1), so (-2,0).
    (3, (3, 0), &[Cut(0), SignChange, Cut(1), Cut(0)], 1, (-2, 0)),
    // (-1,1). (-1,1). (0,0). 0 and digit 1 of 0. At once -1 and digit 3 of -1: (-1,1), so (0,0).
    (6, (-1, 0), &[Cut(1), Cut(1), SignChange, Cut(2)], 4, (0, 0)),
    // 2^32 - 1 and a 1. (-2^32,0). -2 and a 0. At once 1 and digit 60: (1,1), so (-2,0).
    (63, (4_611_686_018_427_387_903, 1), &[Cut(30), SignChange, Cut(31)], 61, (-2, 0)),
    // (2^62 - 1, 1). 1 and digit 60. At once -2 and a 0, so (1,1).
    (63, (-4_611_686_018_427_387_904, 0), &[SignChange, Cut(61)], 61, (1, 1)),
    // 2^40 halved forty times is 1, and all forty digits dropped are 0.
    (42, (1_099_511_627_776, 1), &[Cut(1); 40], 40, (1, 0)),
];

#[rustfmt::skip]
const HALF_UNITS: &[Line] = &[
    // No move.
    (4, (5, 0), &[], 0, (5, 0)),
    // -1-5: 5.5, then -5.5.
    (5, (5, 0), &[SignChange], 0, (-6, 0)),
    // -6, 5.
    (5, (5, 0), &[SignChange, SignChange], 0, (5, 0)),
    // 39 is odd: -1-1.
    (2, (1, 0), &[SignChange; 39], 0, (-2, 0)),
    // 5, -6, -3. At once 2, so -3.
    (5, (11, 0), &[Cut(1), SignChange, Cut(1)], 2, (-3, 0)),
    // -4, 3, 1. At once -2, so 1. Toward zero it would be -3, 2, 1, and at once -1, so 0.
    (4, (-7, 0), &[Cut(1), SignChange, Cut(1)], 2, (1, 0)),
    // 12, 6, -7, -7, -2, 1. At once -13 / 8 is -2, so 1.
    (6, (-13, 0), &[SignChange, Cut(1), SignChange, Cut(0), Cut(2), SignChange], 3, (1, 0)),
    // -4, -2.
    (4, (-8, 0), &[Cut(1), Cut(1)], 2, (-2, 0)),
    // -3, -2. At once -2. Toward zero it would be -2, -1, and at once -1.
    (5, (-5, 0), &[Cut(1), Cut(1)], 2, (-2, 0)),
    // -1: -0.5, then -0.5 * 2.
    (5, (-1, 0), &[Cut(1)], 1, (-1, 0)),
    // 4, 1. 8.5, then 1.5 * 8 = 12: 3.5 off, and half of 8 is 4.
    (5, (8, 0), &[Cut(1), Cut(2)], 3, (1, 0)),
    // -16, -4, -2. 15.5, then -1.5 * 8 = -12: 3.5 off.
    (5, (15, 0), &[SignChange, Cut(2), Cut(1)], 3, (-2, 0)),
    // 3, -4, -2, -2. At once 1, so -2.
    (3, (3, 0), &[Cut(0), SignChange, Cut(1), Cut(0)], 1, (-2, 0)),
    // -1, -1, 0, 0. At once -1, so 0.
    (6, (-1, 0), &[Cut(1), Cut(1), SignChange, Cut(2)], 4, (0, 0)),
    // 2^32 - 1, -2^32, -2. At once 1, so -2.
    (63, (4_611_686_018_427_387_903, 0), &[Cut(30), SignChange, Cut(31)], 61, (-2, 0)),
    // 2^62 - 1, 1. At once -2, so 1.
    (63, (-4_611_686_018_427_387_904, 0), &[SignChange, Cut(61)], 61, (1, 0)),
    // 2^40 halved forty times.
    (42, (1_099_511_627_776, 0), &[Cut(1); 40], 40, (1, 0)),
];

pub fn word(width: u32, unit: i32, (number, round): (i64, u8)) -> Operand {
    Operand {
        number,
        round,
        width,
        unit,
    }
}

/// Holds a run to every law and to the answer by hand: the last word, the refusal, and
/// how many moves are done.
pub fn expect(
    kind: &Moved,
    first: Operand,
    moves: &[Move],
    by_hand: (Operand, u32, usize),
    record: &mut Record,
) {
    let (word, refusal, done) = by_hand;
    let reply = Reply {
        word: word.fields(),
        sum: None,
        refusal,
    };
    let end = hold(kind, first, moves, record);
    record.check(end == End { reply, done }, || {
        format!(
            "a run worked by hand\n  case:    {}\n  library: {:?}\n  by hand: {:?}",
            described(first, moves),
            end,
            by_hand
        )
    });
}

/// At unit 0 and at both ends; the last word has width n-d and unit e+d.
pub fn expect_line(kind: &Moved, line: &Line, record: &mut Record) {
    let &(width, before, moves, depth, after) = line;
    for unit in [0, -127, 127 - depth as i32] {
        let last = word(width - depth, unit + depth as i32, after);
        let by_hand = (last, 0, moves.len());
        expect(kind, word(width, unit, before), moves, by_hand, record);
    }
}

pub fn done(_: &mut Random, record: &mut Record) {
    for (kind, lines) in [(&ROUND_BIT, ROUND_BITS), (&HALF_UNIT, HALF_UNITS)] {
        for line in lines {
            expect_line(kind, line, record);
        }
    }
}
