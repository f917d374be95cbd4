//! A run of cuts and sign changes, made of the library's own calls: each is compared,
//! and then what the run and the cut at once end in.

use super::call::compare;
use super::case::{Case, Operand, Reply};
use super::operations::{
    CUT, HALF_UNIT_CUT, HALF_UNIT_RUN, HALF_UNIT_SIGN_CHANGE, ROUND_BIT_RUN, SIGN_CHANGE,
};
use super::tally::Record;
use crate::model::causes::DONE;
use crate::model::moves::{self, Move};
use crate::model::words::{HalfUnit, RoundBit};

/// The most moves that a list is made with.
pub const MOST_MOVES: usize = 40;

/// A kind of word that has both moves, by the rows of its calls and of its runs.
pub struct Moved {
    pub has_round_bit: bool,
    sign_change: usize,
    cut: usize,
    row: usize,
    run: fn(Operand, &[Move]) -> Reply,
    at_once: fn(Operand, &[Move]) -> Reply,
}

pub const ROUND_BIT: Moved = Moved {
    has_round_bit: true,
    sign_change: SIGN_CHANGE,
    cut: CUT,
    row: ROUND_BIT_RUN,
    run: |first, list| moves::run::<RoundBit>(first.word(), list).into(),
    at_once: |first, list| moves::at_once::<RoundBit>(first.word(), list).into(),
};

pub const HALF_UNIT: Moved = Moved {
    has_round_bit: false,
    sign_change: HALF_UNIT_SIGN_CHANGE,
    cut: HALF_UNIT_CUT,
    row: HALF_UNIT_RUN,
    run: |first, list| moves::run::<HalfUnit>(first.word(), list).into(),
    at_once: |first, list| moves::at_once::<HalfUnit>(first.word(), list).into(),
};

pub const KINDS_MOVED: &[Moved] = &[ROUND_BIT, HALF_UNIT];

/// What a run answered, and how many of its moves were done.
#[derive(Clone, Copy, Debug, PartialEq)]
pub struct End {
    pub reply: Reply,
    pub done: usize,
}

impl Moved {
    /// Each move on the word that the last one answered, up to the first refusal.
    pub fn run(&self, first: Operand, moves: &[Move], record: &mut Record) -> End {
        let mut end = End {
            reply: unmoved(first),
            done: 0,
        };
        for &next in moves {
            end.reply = self.call(next, Operand::of(end.reply.word), record);
            if end.reply.refusal != DONE {
                break;
            }
            end.done += 1;
        }
        record.answer(self.row, end.reply.refusal);
        let second = (self.run)(first, moves);
        same("a run of moves", first, moves, end.reply, second, record);
        end
    }

    /// One cut by all depths together, then a sign change if their number is odd.
    pub fn at_once(&self, first: Operand, moves: &[Move], record: &mut Record) -> Reply {
        // No depth past a u64 can be handed over; it is refused as the most one is.
        let depth = u64::try_from(depths_together(moves)).unwrap_or(u64::MAX);
        let mut reply = compare(self.cut, &Case::deep(first, depth), record);
        if reply.refusal == DONE && is_odd(moves) {
            reply = self.call(Move::SignChange, Operand::of(reply.word), record);
        }
        let second = (self.at_once)(first, moves);
        same("a run's moves at once", first, moves, reply, second, record);
        reply
    }

    fn call(&self, next: Move, word: Operand, record: &mut Record) -> Reply {
        match next {
            // Every list is made of depths that a C function can be handed.
            Move::Cut(depth) => compare(self.cut, &Case::deep(word, depth as u64), record),
            Move::SignChange => compare(self.sign_change, &Case::of(word), record),
        }
    }
}

/// What a run of no moves answers.
pub fn unmoved(first: Operand) -> Reply {
    Reply {
        word: first.fields(),
        sum: None,
        refusal: DONE,
    }
}

/// Depths may together pass a u64, but are too few to pass an i128.
pub fn depths_together(moves: &[Move]) -> i128 {
    let depth = |next: &Move| match next {
        Move::Cut(depth) => *depth,
        Move::SignChange => 0,
    };
    moves.iter().map(depth).sum()
}

/// Whether the number of sign changes is odd.
pub fn is_odd(moves: &[Move]) -> bool {
    let flip = |odd: bool, next: &Move| odd != (*next == Move::SignChange);
    moves.iter().fold(false, flip)
}

fn same(
    what: &str,
    first: Operand,
    moves: &[Move],
    library: Reply,
    second: Reply,
    record: &mut Record,
) {
    record.check(library == second, || {
        format!(
            "{}\n  case:    {}\n  library: {:?}\n  second:  {:?}",
            what,
            described(first, moves),
            library,
            second
        )
    });
}

pub fn described(first: Operand, moves: &[Move]) -> String {
    format!("first {:?}, moves {:?}", first, moves)
}
