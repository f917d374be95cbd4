//! What an operation is given and what it answers, in a form that both
//! programs' words are made from and brought into.

use super::library::OfModel;
use crate::model::running_sum::{RunningSum, SumAnswer};
use crate::model::words::{Answer, Fields, Word, BLANK};

/// The fields of an operand of any kind, in the types of the C functions;
/// kinds without a round bit leave it.
#[derive(Clone, Copy, Debug, PartialEq)]
pub struct Operand {
    pub number: i64,
    pub round: u8,
    pub width: u32,
    pub unit: i32,
}

/// What an operation is given. For a running sum `first` is the kept word and
/// `depth` its depth; opening takes width and unit of `first` alone.
#[derive(Clone, Copy, Debug)]
pub struct Case {
    pub first: Operand,
    pub depth: u64,
    pub second: Operand,
}

/// Everything an operation answers; `sum` is there for the running sum alone.
#[derive(Clone, Copy, Debug, PartialEq)]
pub struct Reply {
    pub word: Fields,
    pub sum: Option<RunningSum>,
    pub refusal: u32,
}

/// What a case must vary to reach all of an operation.
#[derive(Clone, Copy, PartialEq)]
pub struct Takes {
    pub number: bool,
    pub round: bool,
    pub depth: bool,
    pub second: bool,
}

/// One round-bit word and nothing else.
pub const ROUND_BIT_WORD: Takes = Takes {
    number: true,
    round: true,
    depth: false,
    second: false,
};

impl Operand {
    pub const BLANK: Operand = Operand::of(BLANK);

    /// Only of fields that came from a C function, and so have its types.
    pub const fn of(fields: Fields) -> Operand {
        Operand {
            number: fields.number as i64,
            round: fields.round as u8,
            width: fields.width as u32,
            unit: fields.unit as i32,
        }
    }

    pub fn fields(self) -> Fields {
        Fields {
            number: self.number as i128,
            round: self.round as i128,
            width: self.width as i128,
            unit: self.unit as i128,
        }
    }

    /// As the second program takes it.
    pub fn word<W: Word>(self) -> W {
        W::made(self.fields())
    }

    /// As the library takes it.
    pub fn for_library<F: OfModel>(self) -> F
    where
        F::Model: Word,
    {
        F::of(self.word())
    }
}

impl Case {
    pub fn of(first: Operand) -> Case {
        Case {
            first,
            depth: 0,
            second: Operand::BLANK,
        }
    }

    pub fn deep(first: Operand, depth: u64) -> Case {
        Case {
            depth,
            ..Case::of(first)
        }
    }

    pub fn pair(first: Operand, second: Operand) -> Case {
        Case {
            second,
            ..Case::of(first)
        }
    }

    /// A call on a running sum; only a put takes the word.
    pub fn on(sum: RunningSum, word: Operand) -> Case {
        Case {
            first: Operand::of(sum.kept.fields()),
            depth: sum.depth as u64,
            second: word,
        }
    }

    /// The running sum that the call is made on.
    pub fn sum(&self) -> RunningSum {
        RunningSum::made(self.first.word(), self.depth as i128)
    }

    /// Only the operands that the operation takes.
    pub fn describe(&self, takes: Takes) -> String {
        let mut text = format!("first {:?}", self.first);
        if takes.depth {
            text += &format!(", depth {}", self.depth);
        }
        if takes.second {
            text += &format!(", second {:?}", self.second);
        }
        text
    }
}

impl<W: Word> From<Answer<W>> for Reply {
    fn from(answer: Answer<W>) -> Reply {
        Reply {
            word: answer.word.fields(),
            sum: None,
            refusal: answer.refusal,
        }
    }
}

impl From<SumAnswer> for Reply {
    fn from(answer: SumAnswer) -> Reply {
        Reply {
            word: answer.word.fields(),
            sum: Some(answer.sum),
            refusal: answer.refusal,
        }
    }
}
