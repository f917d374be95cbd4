//! First words with their moves, each made to end in a way that is known before it is
//! run, and by neither program.

use super::case::Operand;
use super::limits::*;
use super::move_case::{depths_together, End, Moved, MOST_MOVES};
use super::move_late::{late_by_5, late_by_7, LATE};
use super::move_lists::{any_mixed, any_small, cut, mixed, HUGE};
use super::move_words::{right_word, unit_for, wrong_word};
use super::random::Random;
use crate::model::moves::Move;

/// A first word and its moves.
pub type Made = (Operand, Vec<Move>);

/// One way to make them for a width.
pub struct Way {
    pub name: &'static str,
    /// A word of the least width has no digit to cut, so no cut of it can be a 7.
    pub least_width: u32,
    pub make: fn(&mut Random, &Moved, u32) -> Made,
    /// Whether the run ended as it was made to.
    pub as_made: fn(&End) -> bool,
}

const fn way(
    name: &'static str,
    least_width: u32,
    make: fn(&mut Random, &Moved, u32) -> Made,
    as_made: fn(&End) -> bool,
) -> Way {
    Way {
        name,
        least_width,
        make,
        as_made,
    }
}

#[rustfmt::skip] // one way, one line
pub const WAYS: &[Way] = &[
    way("depths 0 to 2", 2, small_depths, |_| true),
    way("down to 2 digits", 2, to_2_digits, |end| done(end) && end.reply.word.width == 2),
    way("down to 1 digit", 2, to_1_digit, |end| refused(end, 5)),
    way("up to unit 127", 3, to_unit_127, |end| done(end) && end.reply.word.unit == 127),
    way("up to unit 128", 3, to_unit_128, |end| refused(end, 7)),
    way("a huge depth", 2, a_huge_depth, |end| refused(end, 5)),
    way("5 after 30 moves", 2, late_by_5, |end| refused(end, 5) && end.done >= LATE),
    way("7 after 30 moves", 3, late_by_7, |end| refused(end, 7) && end.done >= LATE),
    way("a wrong first word", 2, wrong_first, |end| end.done == 0),
];

fn done(end: &End) -> bool {
    refused(end, 0)
}

fn refused(end: &End, refusal: u32) -> bool {
    end.reply.refusal == refusal
}

/// The depth that leaves 2 digits.
pub fn most_depth(width: u32) -> u64 {
    (width - LEAST_WIDTH) as u64
}

fn small_depths(random: &mut Random, kind: &Moved, width: u32) -> Made {
    let moves = any_small(random, MOST_MOVES);
    let unit = match random.below(2) {
        0 => MOST_UNIT - random.below(MOST_MOVES as u64) as i32,
        _ => unit_for(random, 0),
    };
    let depth = depths_together(&moves) as u64;
    (right_word(random, kind, width, unit, depth), moves)
}

fn to_2_digits(random: &mut Random, kind: &Moved, width: u32) -> Made {
    let depth = most_depth(width);
    let unit = unit_for(random, depth);
    let first = right_word(random, kind, width, unit, depth);
    (first, any_mixed(random, depth))
}

/// The unit is in range for as long as there are digits enough.
fn to_1_digit(random: &mut Random, kind: &Moved, width: u32) -> Made {
    let (first, _) = to_2_digits(random, kind, width);
    (first, any_mixed(random, most_depth(width) + 1))
}

fn to_unit_127(random: &mut Random, kind: &Moved, width: u32) -> Made {
    let depth = 1 + random.below(most_depth(width));
    let unit = MOST_UNIT - depth as i32;
    let first = right_word(random, kind, width, unit, depth);
    (first, any_mixed(random, depth))
}

/// A list up to unit 127, from one unit higher.
fn to_unit_128(random: &mut Random, kind: &Moved, width: u32) -> Made {
    let (mut first, moves) = to_unit_127(random, kind, width);
    first.unit += 1;
    (first, moves)
}

/// Among moves that would be done without it. Half of the lists have another right
/// behind it, and both together are small to a program that drops the carry.
fn a_huge_depth(random: &mut Random, kind: &Moved, width: u32) -> Made {
    let depth = random.below(most_depth(width) + 1);
    let unit = unit_for(random, depth);
    let first = right_word(random, kind, width, unit, depth);
    let sign_changes = random.below(MOST_MOVES as u64 / 2) as usize;
    let mut moves = mixed(random, depth, 15, sign_changes);
    let huge = match random.below(4) {
        0 => random.next().max(MOST_WIDTH as u64),
        _ => random.one_of(&HUGE),
    };
    let place = random.below(moves.len() as u64 + 1) as usize;
    moves.insert(place, cut(huge));
    if random.once_in(2) {
        let with_carry = huge.wrapping_neg().wrapping_add(random.below(3));
        moves.insert(place + 1, cut(with_carry));
    }
    (first, moves)
}

/// Its first move is refused, and where there is no move none is done.
fn wrong_first(random: &mut Random, kind: &Moved, width: u32) -> Made {
    let first = wrong_word(random, kind, width);
    let mut moves = any_small(random, MOST_MOVES - 1);
    if random.once_in(4) {
        moves.insert(0, cut(random.one_of(&HUGE)));
    }
    (first, moves)
}
