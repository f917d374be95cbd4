//! Document 02, Ask 8: runs of cuts and sign changes, and the word that such a run
//! is to end in.
//! Written from documents 01 and 02 alone; it shares nothing with crates/.

use super::causes::DONE;
use super::words::*;
use super::{half_unit, round_bit};

/// One move of a run.
#[derive(Clone, Copy, Debug, PartialEq, Eq)]
pub enum Move {
    Cut(i128),
    SignChange,
}

/// The kinds that have both moves. The even cut is none: the even rules are not
/// part of the ask.
pub trait Moved: Word {
    fn cut(self, d: i128) -> Answer<Self>;
    fn sign_change(self) -> Answer<Self>;
}

impl Moved for RoundBit {
    fn cut(self, d: i128) -> Answer<RoundBit> {
        round_bit::cut(self, d)
    }

    fn sign_change(self) -> Answer<RoundBit> {
        round_bit::sign_change(self)
    }
}

impl Moved for HalfUnit {
    fn cut(self, d: i128) -> Answer<HalfUnit> {
        half_unit::cut(self, d)
    }

    fn sign_change(self) -> Answer<HalfUnit> {
        half_unit::sign_change(self)
    }
}

fn after<W: Moved>(word: W, next: Move) -> Answer<W> {
    match next {
        Move::Cut(d) => word.cut(d),
        Move::SignChange => word.sign_change(),
    }
}

/// Each move on the word that the last one answered. The first refusal ends the
/// run, and its answer is the run's; a run of no moves refuses nothing.
pub fn run<W: Moved>(first: W, moves: &[Move]) -> Answer<W> {
    let mut answer = Answer::done(first);
    for &next in moves {
        answer = after(answer.word, next);
        if answer.refusal != DONE {
            break;
        }
    }
    answer
}

/// One cut by all depths together, followed by a sign change if their number was
/// odd.
pub fn at_once<W: Moved>(first: W, moves: &[Move]) -> Answer<W> {
    let answer = first.cut(depths_together(moves));
    if answer.refusal != DONE || number_of_sign_changes(moves) % 2 == 0 {
        return answer;
    }
    answer.word.sign_change()
}

fn depths_together(moves: &[Move]) -> i128 {
    let mut together = 0;
    for next in moves {
        if let Move::Cut(d) = next {
            together += d;
        }
    }
    together
}

fn number_of_sign_changes(moves: &[Move]) -> usize {
    let is_one = |next: &&Move| **next == Move::SignChange;
    moves.iter().filter(is_one).count()
}
