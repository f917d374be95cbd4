//! First words with moves of which many are done before one is refused, and some behind
//! it that are not to be made.

use super::limits::*;
use super::move_case::{Moved, MOST_MOVES};
use super::move_lists::{any_small, cut, mixed, HUGE};
use super::move_ways::{most_depth, Made};
use super::move_words::{right_word, unit_for};
use super::random::Random;
use crate::model::moves::Move;

/// So many moves at least are done.
pub const LATE: usize = 30;

/// Moves that cut by a depth together, the cut that is refused, and what is behind it.
fn late(random: &mut Random, depth: u64, refused: u64) -> Vec<Move> {
    let before = LATE + random.below((MOST_MOVES - LATE) as u64) as usize;
    let cuts = 1 + random.below(before as u64) as usize;
    let mut moves = mixed(random, depth, cuts, before - cuts);
    moves.push(cut(refused));
    let behind = any_small(random, MOST_MOVES - moves.len());
    moves.extend(behind);
    moves
}

pub fn late_by_5(random: &mut Random, kind: &Moved, width: u32) -> Made {
    let most = most_depth(width);
    let depth = random.below(most + 1);
    let refused = match random.below(4) {
        0 => random.one_of(&HUGE),
        1 => most - depth + 1 + random.below(70),
        _ => most - depth + 1,
    };
    let unit = unit_for(random, depth);
    let first = right_word(random, kind, width, unit, most);
    (first, late(random, depth, refused))
}

/// The refused cut leaves digits enough, and the unit is in range before it.
pub fn late_by_7(random: &mut Random, kind: &Moved, width: u32) -> Made {
    let together = 1 + random.below(most_depth(width));
    let refused = 1 + random.below(together);
    let depth = together - refused;
    let unit = MOST_UNIT - depth as i32 - random.below(refused) as i32;
    let first = right_word(random, kind, width, unit, together);
    (first, late(random, depth, refused))
}
