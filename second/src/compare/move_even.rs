//! Even cuts are no part of document 02, Ask 8. A cut by at least 1 after one is still
//! one cut by both depths, since it drops the round bit, in which alone the two differ.
//! An even cut after a cut, or after an even cut, is not one even cut. That an even cut
//! and a sign change may be exchanged is held among the laws of the even cut.

use super::call::compare;
use super::case::{Case, Operand};
use super::limits::*;
use super::move_case::ROUND_BIT;
use super::move_ends::{by_a_shift, is_done};
use super::move_lists::cut;
use super::move_sheet::word;
use super::move_words::{right_word, unit_for};
use super::operations::{CUT, EVEN_CUT};
use super::random::Random;
use super::tally::Record;

/// All words up to this width.
const WIDEST: u32 = 8;
/// For each width.
const RANDOM_CASES: u64 = 500;
/// Up to this width an even cut after an even cut is one even cut.
const WIDEST_ALIKE: u32 = 4;

/// A call, its depth, and the number and round bit that it answers.
type Call = (usize, u64, (i64, u8));

/// Width, first word, one call after the other, and one call by both depths.
type Line = (u32, (i64, u8), [Call; 2], Call);

/// All done at this width, and so at every greater one: more digits above change no
/// digit that a cut drops.
#[rustfmt::skip] // one line by hand, one line here
const LINES: &[Line] = &[
    // 2 is 0010, so (1,0). 1 is half of 2, a tie, and 0 is the even count: (0,0).
    // At once a new unit is 4. 2 + 1 is not half of it, so digit 1 of 2: (0,1).
    (4, (2, 1), [(CUT, 1, (1, 0)), (EVEN_CUT, 1, (0, 0))], (EVEN_CUT, 2, (0, 1))),
    // 5 is 00101. It is 1 above 4, no tie, so digit 1: (1,0). 1 is half of 2, a tie: (0,0).
    // At once a new unit is 8. 5 is not half of it, so digit 2: (0,1).
    (5, (5, 0), [(EVEN_CUT, 2, (1, 0)), (EVEN_CUT, 1, (0, 0))], (EVEN_CUT, 3, (0, 1))),
    // 5 is 1 above 4, a tie, and 2 twos are even: (2,0). 2 is half of 4, a tie: (0,0).
    (5, (5, 0), [(EVEN_CUT, 1, (2, 0)), (EVEN_CUT, 2, (0, 0))], (EVEN_CUT, 3, (0, 1))),
    // -5 is 11011, 3 above -8, no tie, so digit 1: (-2,1). -1 is 1 above -2, a tie, and 0 is
    // even: (-1,1). At once -5 is 3 above -8, no tie, so digit 2: (-1,0).
    (5, (-5, 0), [(EVEN_CUT, 2, (-2, 1)), (EVEN_CUT, 1, (-1, 1))], (EVEN_CUT, 3, (-1, 0))),
    // 3 is 1 above 2, a tie, and 2 twos are even: (1,1). 0 and digit 0 of 1. At once digit 1 of 3.
    (4, (3, 0), [(EVEN_CUT, 1, (1, 1)), (CUT, 1, (0, 1))], (CUT, 2, (0, 1))),
    // (1,0). 0 and digit 0 of 1. At once digit 1 of 2; an even cut would be P13's (0,0).
    (4, (2, 0), [(EVEN_CUT, 1, (1, 0)), (CUT, 1, (0, 1))], (CUT, 2, (0, 1))),
    // An even cut by 0 is none.
    (4, (2, 1), [(EVEN_CUT, 0, (2, 1)), (CUT, 2, (0, 1))], (CUT, 2, (0, 1))),
    // A cut by 0 is none either, and so the tie stays: at once by 2 it is another word.
    (4, (2, 0), [(EVEN_CUT, 2, (0, 0)), (CUT, 0, (0, 0))], (CUT, 2, (0, 1))),
];

pub fn by_hand(_: &mut Random, record: &mut Record) {
    for &(least, first, [one, other], at_once) in LINES {
        for width in least..=63 {
            let first = word(width, 0, first);
            let between = expect(first, one, record);
            expect(between, other, record);
            expect(first, at_once, record);
        }
    }
}

/// The answer by hand is what the next call is made on.
fn expect(first: Operand, (row, depth, answer): Call, record: &mut Record) -> Operand {
    let case = Case::deep(first, depth);
    let by_hand = word(
        first.width - depth as u32,
        first.unit + depth as i32,
        answer,
    );
    let reply = compare(row, &case, record);
    let agrees = reply.refusal == 0 && reply.word == by_hand.fields();
    record.check(agrees, || {
        format!(
            "even cuts and cuts worked by hand\n  case:    {:?}\n  library: {:?}\n  by hand: {:?}",
            case, reply, by_hand
        )
    });
    by_hand
}

/// A cut by at least 1 after an even cut that is done, which may itself be refused.
fn hold(first: Operand, even_depth: u64, depth: u64, record: &mut Record) {
    let even = compare(EVEN_CUT, &Case::deep(first, even_depth), record);
    let after = compare(CUT, &Case::deep(Operand::of(even.word), depth), record);
    let at_once = compare(CUT, &Case::deep(first, even_depth + depth), record);
    let together = [cut(even_depth + depth)];
    let kept = if is_done(first, &together) {
        after.refusal == 0 && after.word == by_a_shift(&ROUND_BIT, first, &together)
    } else {
        after.refusal != 0
    };
    record.check(kept && after == at_once, || {
        let given = format!("{:?}, even cut by {}, cut by {}", first, even_depth, depth);
        format!(
            "a cut after an even cut is one cut\n  case:    {}\n  library: {:?}\n  at once: {:?}",
            given, after, at_once
        )
    });
}

pub fn small_widths(_: &mut Random, record: &mut Record) {
    for width in LEAST_WIDTH..=WIDEST {
        let half = 1i64 << (width - 1);
        for even_depth in 0..=(width - LEAST_WIDTH) as u64 {
            for depth in 0..width as u64 - even_depth {
                for number in -half..half {
                    for round in [0, 1] {
                        let first = word(width, 0, (number, round));
                        if depth > 0 {
                            hold(first, even_depth, depth, record);
                        }
                        if width <= WIDEST_ALIKE {
                            even_after_even(first, even_depth, depth, record);
                        }
                    }
                }
            }
        }
    }
}

/// In words so short depths 1 and 1 are all that is to be seen: an odd value goes to a
/// multiple of 4, as it does at once, and an even one stays.
fn even_after_even(first: Operand, even_depth: u64, depth: u64, record: &mut Record) {
    let even = compare(EVEN_CUT, &Case::deep(first, even_depth), record);
    let after = compare(EVEN_CUT, &Case::deep(Operand::of(even.word), depth), record);
    let at_once = compare(EVEN_CUT, &Case::deep(first, even_depth + depth), record);
    record.check(after == at_once, || {
        let given = format!("{:?}, even cuts by {} and {}", first, even_depth, depth);
        format!(
            "an even cut after an even cut\n  case:    {}\n  library: {:?}\n  at once: {:?}",
            given, after, at_once
        )
    });
}

pub fn every_width(random: &mut Random, record: &mut Record) {
    for width in LEAST_WIDTH..=MOST_WIDTH {
        for _ in 0..RANDOM_CASES {
            let even_depth = random.below((width - LEAST_WIDTH + 1) as u64);
            let depth = 1 + random.below(width as u64 - even_depth);
            let unit = unit_for(random, even_depth);
            let first = right_word(random, &ROUND_BIT, width, unit, even_depth);
            hold(first, even_depth, depth, record);
        }
    }
}
