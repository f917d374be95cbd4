//! Lists of cuts and sign changes.

use super::limits::*;
use super::move_case::{depths_together, is_odd, MOST_MOVES};
use super::random::Random;
use crate::model::moves::Move;

/// Depths past every width; some look like small ones to a program that drops digits.
pub const HUGE: [u64; 9] = [
    MOST_WIDTH as u64,
    MOST_WIDTH as u64 + 1,
    256,
    257,
    1 << 32,
    (1 << 32) + 1,
    1 << 63,
    u64::MAX - 1,
    u64::MAX,
];

/// By a depth that a C function can be handed.
pub fn cut(depth: u64) -> Move {
    Move::Cut(depth as i128)
}

/// So many cuts, by this depth together, in any order among so many sign changes.
pub fn mixed(random: &mut Random, depth: u64, cuts: usize, sign_changes: usize) -> Vec<Move> {
    let mut moves = vec![Move::SignChange; sign_changes];
    let mut ends = Vec::new();
    for _ in 1..cuts {
        ends.push(random.below(depth.saturating_add(1)));
    }
    ends.sort();
    if cuts > 0 {
        ends.push(depth);
    }
    let mut before = 0;
    for end in ends {
        moves.push(cut(end - before));
        before = end;
    }
    random.shuffle(&mut moves);
    moves
}

/// Few cuts or many, by this depth together.
pub fn any_mixed(random: &mut Random, depth: u64) -> Vec<Move> {
    let cuts = match random.below(3) {
        0 => 1 + random.below(4),
        _ => 20 + random.below(MOST_MOVES as u64 - 20 + 1),
    };
    let sign_changes = random.below(MOST_MOVES as u64 - cuts + 1);
    mixed(random, depth, cuts as usize, sign_changes as usize)
}

/// Up to so many moves; cuts by more than 2 would soon use up the digits.
pub fn any_small(random: &mut Random, most: usize) -> Vec<Move> {
    let choices = [Move::SignChange, Move::SignChange, cut(0), cut(1), cut(2)];
    let count = random.below(most as u64 + 1);
    (0..count).map(|_| random.one_of(&choices)).collect()
}

/// Other moves that cut as deep together, with as many sign changes but for an even
/// number.
pub fn another(random: &mut Random, moves: &[Move]) -> Vec<Move> {
    let sign_changes = is_odd(moves) as usize + 2 * random.below(10) as usize;
    if let Ok(depth) = u64::try_from(depths_together(moves)) {
        let cuts = random.below(20) as usize + (depth > 0) as usize;
        return mixed(random, depth, cuts, sign_changes);
    }
    // No one cut is as deep as these together, so they stay.
    let mut others = moves.to_vec();
    others.retain(|next| *next != Move::SignChange);
    others.resize(others.len() + sign_changes, Move::SignChange);
    random.shuffle(&mut others);
    others
}
