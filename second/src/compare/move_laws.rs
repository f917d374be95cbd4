//! The laws of runs that document 02, Ask 8 states. The library's answers are held to
//! each other and to what is worked out beside both programs.

use super::case::{Operand, Reply};
use super::move_case::{depths_together, described, unmoved, End, Moved};
use super::move_ends::{
    by_a_shift, first_to_pass, is_done, off_and_half_its_unit, refusal_of_word,
};
use super::tally::Record;
use crate::model::moves::Move;
use crate::model::words::Fields;

/// Whether the answer keeps a law, and the law.
type Law = (bool, &'static str);

const BLANK: Fields = Fields {
    number: 0,
    round: 0,
    width: 2,
    unit: 0,
};

/// Compares a run and its moves at once, and holds the library's answers to every
/// law.
pub fn hold(kind: &Moved, first: Operand, moves: &[Move], record: &mut Record) -> End {
    let end = kind.run(first, moves, record);
    let at_once = kind.at_once(first, moves, record);
    let laws = match refusal_of_word(kind, first) {
        0 => laws_of_right(kind, first, moves, end, at_once),
        refusal => laws_of_wrong(first, moves, refusal, end, at_once),
    };
    for (kept, law) in laws {
        record.check(kept, || {
            format!(
                "a law of runs: {}\n  case:    {}\n  library: {:?}\n  at once: {:?}",
                law,
                described(first, moves),
                end,
                at_once
            )
        });
    }
    end
}

/// Two lists with the same depths together and the same parity of sign changes, on a
/// right first word. Where the condition fails both are refused, each by the number of
/// its own first move that passes.
pub fn hold_alike(first: Operand, one: (&[Move], End), other: (&[Move], End), record: &mut Record) {
    let (here, there) = (one.1.reply, other.1.reply);
    let alike = if is_done(first, one.0) {
        here == there
    } else {
        here.refusal != 0 && there.refusal != 0
    };
    record.check(alike, || {
        let given = described(first, one.0);
        format!(
            "lists with the same depths together and the same parity\n  case:    {}\n  \
             other:   {:?}\n  library: {:?}\n  other:   {:?}",
            given, other.0, here, there
        )
    });
}

/// The first move makes the refusal, whichever it is; where there is none nothing
/// does.
fn laws_of_wrong(
    first: Operand,
    moves: &[Move],
    refusal: u32,
    end: End,
    at_once: Reply,
) -> Vec<Law> {
    let reply = end.reply;
    if moves.is_empty() {
        return vec![(reply == unmoved(first), "no move answers the first word")];
    }
    let refused = (reply.refusal, reply.word, end.done) == (refusal, BLANK, 0);
    vec![
        (refused, "1, 2, 3 of the first word at the first move"),
        (reply == at_once, "a wrong word is refused alike at once"),
    ]
}

fn laws_of_right(
    kind: &Moved,
    first: Operand,
    moves: &[Move],
    end: End,
    at_once: Reply,
) -> Vec<Law> {
    let done = is_done(first, moves);
    let reply = end.reply;
    let mut laws = vec![
        (
            (reply.refusal == 0) == done,
            "done exactly if 2 digits remain and the unit stays in range at the end",
        ),
        (
            (at_once.refusal == 0) == done,
            "at once done exactly if the same",
        ),
        (
            (reply.refusal, end.done) == first_to_pass(first, moves),
            "refused by the first move that passes an end, 5 before 7",
        ),
    ];
    if reply.refusal != 0 {
        laws.push((reply.word == BLANK, "a refusal returns the blank word"));
    }
    if reply.refusal == 0 && done {
        laws.push((reply == at_once, "it ends in the same word as at once"));
        let by_shift = by_a_shift(kind, first, moves);
        laws.push((reply.word == by_shift, "it is the first word shifted once"));
        laws.push(law_of_value(kind, first, moves, reply.word));
    }
    laws
}

/// A half-unit word is never exactly half its unit off; a round-bit word may be.
fn law_of_value(kind: &Moved, first: Operand, moves: &[Move], last: Fields) -> Law {
    let (off, half_its_unit) = off_and_half_its_unit(kind, first, moves, last);
    match (depths_together(moves), kind.has_round_bit) {
        (0, _) => (off == 0, "the value is equal if nothing was cut"),
        (_, true) => (off <= half_its_unit, "the value is within half its unit"),
        (_, false) => (
            off < half_its_unit,
            "the value is closer than half its unit",
        ),
    }
}
