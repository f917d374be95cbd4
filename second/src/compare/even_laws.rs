//! The laws of the even cut that document 02, Ask 2 states, and the sign law that
//! follows from them. They are worked out here from the values and the digits,
//! and the second program's own cuts are not asked.

use super::call::compare;
use super::case::{Case, Operand, Reply};
use super::operations::{EVEN_CUT, SIGN_CHANGE};
use super::tally::Record;
use crate::model::causes::DONE;
use crate::model::words::Fields;
use std::fmt::Debug;

/// Whether the answer keeps a law, and the law.
type Law = (bool, &'static str);

/// Compares the even cut of a good word by a depth that it allows, and holds the
/// library's answer to every law.
pub fn hold(first: Operand, depth: u64, record: &mut Record) {
    let reply = compare(EVEN_CUT, &Case::deep(first, depth), record);
    for (kept, law) in laws(first, depth, reply) {
        record.check(kept, || broken(law, first, depth, reply));
    }
    let cut_then_changed = sign_change(Operand::of(reply.word), record);
    let changed = sign_change(first, record);
    let case = Case::deep(Operand::of(changed.word), depth);
    let changed_then_cut = compare(EVEN_CUT, &case, record);
    record.check(changed_then_cut == cut_then_changed, || {
        let law = "of the sign change it is the sign change";
        broken(law, first, depth, (changed_then_cut, cut_then_changed))
    });
}

/// By the library's own call, which is compared as well.
fn sign_change(word: Operand, record: &mut Record) -> Reply {
    compare(SIGN_CHANGE, &Case::of(word), record)
}

fn broken(law: &str, first: Operand, depth: u64, library: impl Debug) -> String {
    format!(
        "a law of the even cut: {}\n  case:    {:?}, depth {}\n  library: {:?}",
        law, first, depth, library
    )
}

fn laws(first: Operand, depth: u64, reply: Reply) -> Vec<Law> {
    let mut laws = vec![(reply.refusal == DONE, "it is done")];
    if depth == 0 {
        laws.push((reply.word == first.fields(), "depth 0 returns the word"));
        return laws;
    }
    laws.push((
        reply.word == as_the_cut(first, depth, reply.word.round),
        "number, width and unit are the cut's",
    ));
    laws.extend(laws_of_value(first, depth, reply.word));
    if first.round == 0 {
        let kept = reply.word.round == equation_11(first.number, depth);
        laws.push((kept, "words with round bit 0 keep their answers"));
    }
    laws
}

fn as_the_cut(first: Operand, depth: u64, round: i128) -> Fields {
    Fields {
        // The shift of a signed number goes toward minus infinity.
        number: (first.number >> depth) as i128,
        round,
        width: first.width as i128 - depth as i128,
        unit: first.unit as i128 + depth as i128,
    }
}

/// In old units, a new one being 2^d of them, and twice, since halves occur.
fn laws_of_value(first: Operand, depth: u64, cut: Fields) -> Vec<Law> {
    let new_unit = 1 << depth;
    let count = cut.number + cut.round;
    let twice_off = 2 * (count * new_unit - value(first)).abs();
    let mut laws = vec![(twice_off <= new_unit, "within half a new unit")];
    if is_tie(first, depth) {
        laws.push((count % 2 == 0, "a tie goes to the even count"));
    } else {
        laws.push((twice_off < new_unit, "no tie, so the one nearest count"));
    }
    laws
}

fn value(word: Operand) -> i128 {
    word.number as i128 + word.round as i128
}

/// Half a new unit from two whole counts at once, wherever the digits are cut.
pub fn is_tie(first: Operand, depth: u64) -> bool {
    let new_unit = 1 << depth;
    (2 * value(first)).rem_euclid(2 * new_unit) == new_unit
}

/// Document 01: (T or b) and h, in the digits of the number.
fn equation_11(number: i64, depth: u64) -> i128 {
    let h = number >> (depth - 1) & 1;
    let b = number >> depth & 1;
    let below = (1 << (depth - 1)) - 1;
    let t = (number & below != 0) as i64;
    ((t | b) & h) as i128
}
