//! What a run of cuts and sign changes must end in by document 02, Ask 8, worked out
//! from the first word's digits in i128; the second program's runs are not asked. So
//! the numbers stand here as they stand in the documents, and not under the model's
//! names.

use super::case::Operand;
use super::move_case::{depths_together, is_odd, Moved};
use crate::model::moves::Move;
use crate::model::words::Fields;

/// 1, 2 and 3 in this order; 0 of a right word.
pub fn refusal_of_word(kind: &Moved, word: Operand) -> u32 {
    if !(2..=63).contains(&word.width) {
        return 1;
    }
    if !(-127..=127).contains(&word.unit) {
        return 2;
    }
    let half = 1i64 << (word.width - 1);
    let round_is_good = !kind.has_round_bit || word.round <= 1;
    if -half <= word.number && word.number < half && round_is_good {
        0
    } else {
        3
    }
}

/// Ask 8's condition on a right first word: at least 2 digits remain and the unit
/// stays in range at the end. A cut never lowers the unit, so it has one end to pass.
pub fn is_done(first: Operand, moves: &[Move]) -> bool {
    let together = depths_together(moves);
    first.width as i128 - together >= 2 && first.unit as i128 + together <= 127
}

/// The refusal number of a right first word's run, and how many moves are done before
/// it: 0 and all of them if no move passes an end. With both ends passed it is 5.
pub fn first_to_pass(first: Operand, moves: &[Move]) -> (u32, usize) {
    let mut so_far = 0;
    for (done, next) in moves.iter().enumerate() {
        if let Move::Cut(depth) = next {
            so_far += depth;
        }
        if first.width as i128 - so_far < 2 {
            return (5, done);
        }
        if first.unit as i128 + so_far > 127 {
            return (7, done);
        }
    }
    (0, moves.len())
}

/// The word at the end of a run that is done.
pub fn by_a_shift(kind: &Moved, first: Operand, moves: &[Move]) -> Fields {
    let together = depths_together(moves);
    // The shift of a signed number goes toward minus infinity.
    let number = first.number as i128 >> together;
    let round = match (kind.has_round_bit, together) {
        (false, _) => 0,
        (true, 0) => first.round as i128,
        (true, _) => first.number as i128 >> (together - 1) & 1,
    };
    let (number, round) = match (is_odd(moves), kind.has_round_bit) {
        (false, _) => (number, round),
        (true, false) => (-1 - number, round),
        (true, true) => (-1 - number, 1 - round),
    };
    Fields {
        number,
        round,
        width: first.width as i128 - together,
        unit: first.unit as i128 + together,
    }
}

/// How far the last word's value is from the first word's, apart from the sign, and
/// what half the last word's unit is; both in half units of the first word.
pub fn off_and_half_its_unit(
    kind: &Moved,
    first: Operand,
    moves: &[Move],
    last: Fields,
) -> (i128, i128) {
    let together = depths_together(moves);
    let sign = if is_odd(moves) { -1 } else { 1 };
    let value = sign * (half_units(kind, last) << together);
    let off = value - half_units(kind, first.fields());
    (off.abs(), 1 << together)
}

/// a + r units, or w + 1/2 units.
fn half_units(kind: &Moved, word: Fields) -> i128 {
    if kind.has_round_bit {
        2 * (word.number + word.round)
    } else {
        2 * word.number + 1
    }
}
