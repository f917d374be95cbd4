//! Document 01, sections "The words" and "Refusal numbers": the words, their
//! formats, causes 1 to 3, the blank word, and what is answered.
//! Written from document 01 alone; it shares nothing with crates/.

use super::causes::*;
use super::kinds::{Kind, HALF_UNIT, PLAIN, ROUND_BIT};

/// The least width, and so the fewest digits that a cut may leave.
pub const LEAST_WIDTH: i128 = 2;
pub const MOST_WIDTH: i128 = 63;
pub const MOST_UNIT: i128 = 127;
pub const LEAST_UNIT: i128 = -MOST_UNIT;

/// The fields of a word of any kind; kinds without a round bit have 0 there.
#[derive(Clone, Copy, Debug, PartialEq, Eq)]
pub struct Fields {
    pub number: i128,
    pub round: i128,
    pub width: i128,
    pub unit: i128,
}

/// The blank word, of each kind.
pub const BLANK: Fields = Fields {
    number: 0,
    round: 0,
    width: 2,
    unit: 0,
};

pub trait Word: Copy {
    const KIND: Kind;
    fn made(fields: Fields) -> Self;
    fn fields(&self) -> Fields;

    fn blank() -> Self {
        Self::made(BLANK)
    }

    /// Causes 1, 2 and 3 in this order; 0 if the word has none of them.
    fn causes(&self) -> u32 {
        let fields = self.fields();
        let format = causes_of_operand(fields.width, fields.unit);
        if format != DONE {
            return format;
        }
        let good = Self::KIND.allows(fields.number, fields.round, fields.width);
        refuse_if(!good, NUMBER_OUTSIDE)
    }
}

/// The plain and the half-unit words have the same fields, yet each is a type
/// of its own: one kind must never be taken for another.
macro_rules! word_without_round_bit {
    ($word:ident, $kind:ident) => {
        #[derive(Clone, Copy, Debug, PartialEq, Eq)]
        pub struct $word {
            pub number: i128,
            pub width: i128,
            pub unit: i128,
        }

        impl Word for $word {
            const KIND: Kind = $kind;

            fn made(fields: Fields) -> $word {
                $word {
                    number: fields.number,
                    width: fields.width,
                    unit: fields.unit,
                }
            }

            fn fields(&self) -> Fields {
                Fields {
                    number: self.number,
                    round: 0,
                    width: self.width,
                    unit: self.unit,
                }
            }
        }
    };
}

word_without_round_bit!(Plain, PLAIN);
word_without_round_bit!(HalfUnit, HALF_UNIT);

#[derive(Clone, Copy, Debug, PartialEq, Eq)]
pub struct RoundBit {
    pub number: i128,
    pub round: i128,
    pub width: i128,
    pub unit: i128,
}

impl Word for RoundBit {
    const KIND: Kind = ROUND_BIT;

    fn made(fields: Fields) -> RoundBit {
        RoundBit {
            number: fields.number,
            round: fields.round,
            width: fields.width,
            unit: fields.unit,
        }
    }

    fn fields(&self) -> Fields {
        Fields {
            number: self.number,
            round: self.round,
            width: self.width,
            unit: self.unit,
        }
    }
}

/// What an operation answers: a word, and the refusal number (0 is done).
#[derive(Clone, Copy, Debug, PartialEq, Eq)]
pub struct Answer<W> {
    pub word: W,
    pub refusal: u32,
}

impl<W: Word> Answer<W> {
    pub fn done(word: W) -> Answer<W> {
        Answer {
            word,
            refusal: DONE,
        }
    }
    pub fn refused(refusal: u32) -> Answer<W> {
        Answer {
            word: W::blank(),
            refusal,
        }
    }
}

/// What writing into a lent buffer answers.
#[derive(Clone, Copy, Debug, PartialEq, Eq)]
pub struct Written {
    pub bytes: i128,
    pub refusal: u32,
}

impl Written {
    pub fn done(bytes: usize) -> Written {
        Written {
            bytes: bytes as i128,
            refusal: DONE,
        }
    }
    pub fn refused(refusal: u32) -> Written {
        Written { bytes: 0, refusal }
    }
}

pub fn unit_is_good(unit: i128) -> bool {
    LEAST_UNIT <= unit && unit <= MOST_UNIT
}

/// Causes 1 and 2 of what has a width and a unit.
pub fn causes_of_operand(width: i128, unit: i128) -> u32 {
    let width_is_good = LEAST_WIDTH <= width && width <= MOST_WIDTH;
    first_of(&[
        refuse_if(!width_is_good, WIDTH_OUTSIDE),
        refuse_if(!unit_is_good(unit), UNIT_OUTSIDE),
    ])
}

/// Causes 5 and 7 of a cut by d, or of a conversion with depth d.
pub fn causes_of_cut(width: i128, unit: i128, d: i128) -> u32 {
    first_of(&[
        refuse_if(width - d < LEAST_WIDTH, DEPTH_OUTSIDE),
        refuse_if(!unit_is_good(unit + d), ANSWER_UNIT_OUTSIDE),
    ])
}

/// Causes 6 and 7 of an answer that may be wider than its operands.
pub fn causes_of_format(width: i128, unit: i128) -> u32 {
    first_of(&[
        refuse_if(width > MOST_WIDTH, ANSWER_TOO_WIDE),
        refuse_if(!unit_is_good(unit), ANSWER_UNIT_OUTSIDE),
    ])
}
