//! Document 01, section "The running sum".
//! Written from document 01 alone; it shares nothing with crates/.

use super::causes::*;
use super::round_bit::{cause_of_difference, cut, neutral, rest, sum};
use super::words::*;

#[derive(Clone, Copy, Debug, PartialEq, Eq)]
pub struct RunningSum {
    pub kept: RoundBit,
    pub depth: i128,
}

impl RunningSum {
    /// Every running sum is made here.
    pub fn made(kept: RoundBit, depth: i128) -> RunningSum {
        RunningSum { kept, depth }
    }

    /// The same sum with another word kept.
    fn keeping(self, kept: RoundBit) -> RunningSum {
        RunningSum { kept, ..self }
    }

    /// 1, 2 and 3 of the kept word.
    fn causes_of_word(&self) -> u32 {
        self.kept.causes()
    }

    /// Of the others: 5 and 7, those of the depth.
    fn causes_of_depth(&self) -> u32 {
        let outside = self.depth < 1 || self.depth > self.kept.width - LEAST_WIDTH;
        first_of(&[
            refuse_if(outside, DEPTH_OUTSIDE),
            refuse_if(self.kept.unit + self.depth > MOST_UNIT, ANSWER_UNIT_OUTSIDE),
        ])
    }

    fn causes(&self) -> u32 {
        first_of(&[self.causes_of_word(), self.causes_of_depth()])
    }
}

/// The sum as the call leaves it, the word handed back, the refusal number.
/// Opening and putting hand back no word: the blank word stands there.
#[derive(Clone, Copy, Debug, PartialEq, Eq)]
pub struct SumAnswer {
    pub sum: RunningSum,
    pub word: RoundBit,
    pub refusal: u32,
}

fn done(sum: RunningSum, word: RoundBit) -> SumAnswer {
    SumAnswer {
        sum,
        word,
        refusal: DONE,
    }
}

/// A refused call leaves the sum as it was.
fn refused(sum: RunningSum, refusal: u32) -> SumAnswer {
    SumAnswer {
        sum,
        word: RoundBit::blank(),
        refusal,
    }
}

pub fn open(width: i128, unit: i128, depth: i128) -> SumAnswer {
    let running = RunningSum::made(neutral(width, unit), depth);
    match running.causes() {
        DONE => done(running, RoundBit::blank()),
        refusal => refused(RunningSum::made(RoundBit::blank(), 0), refusal),
    }
}

pub fn put(running: RunningSum, word: RoundBit) -> SumAnswer {
    // The sum is the first operand, the word the second; of the other causes
    // the lowest number goes first: 4, 5, 7 and at last 8.
    let refusal = first_of(&[
        running.causes_of_word(),
        word.causes(),
        cause_of_difference(running.kept, word),
        running.causes_of_depth(),
    ]);
    if refusal != DONE {
        return refused(running, refusal);
    }
    let answer = sum(running.kept, word);
    match answer.refusal {
        DONE => done(running.keeping(answer.word), RoundBit::blank()),
        refusal => refused(running, refusal),
    }
}

pub fn hand_out(running: RunningSum) -> SumAnswer {
    let refusal = running.causes();
    if refusal != DONE {
        return refused(running, refusal);
    }
    let word = cut(running.kept, running.depth).word;
    let kept = rest(running.kept, running.depth).word;
    done(running.keeping(kept), word)
}

pub fn empty(running: RunningSum) -> SumAnswer {
    let refusal = running.causes();
    if refusal != DONE {
        return refused(running, refusal);
    }
    let kept = neutral(running.kept.width, running.kept.unit);
    done(running.keeping(kept), running.kept)
}
