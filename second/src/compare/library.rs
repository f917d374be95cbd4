//! The library under test, as its C header declares it, and how its structs
//! are made from the model's values and opened up into them: nothing else
//! looks into the header's structs.

pub use super::functions::*;
use crate::model::bank::{Bank, Row, CHANNELS, TAPS};
use crate::model::block_file::Head;
use crate::model::block_sum::BlockSumAnswer;
use crate::model::digit_text::TextAnswer;
use crate::model::reading::{Reading, ReadingAnswer};
use crate::model::running_sum::{RunningSum, SumAnswer};
use crate::model::words::{Answer, HalfUnit, Plain, RoundBit, Written};

/// A struct of the header that has a like in the model.
pub trait OfModel {
    type Model;
    fn of(model: Self::Model) -> Self;
    fn model(self) -> Self::Model;
}

/// Makes a C word and its answer; each kind is a type of its own, also where
/// the fields are alike, as in the header.
macro_rules! word {
    ($word:ident, $answer:ident, $model:ident $(, $round:ident)?) => {
        #[repr(C)]
        #[derive(Clone, Copy)]
        pub struct $word {
            pub number: i64,
            pub width: u32,
            pub unit: i32,
            $(pub $round: u8,)?
        }

        impl OfModel for $word {
            type Model = $model;

            fn of(model: $model) -> $word {
                $word {
                    number: model.number as i64,
                    width: model.width as u32,
                    unit: model.unit as i32,
                    $($round: model.$round as u8,)?
                }
            }

            fn model(self) -> $model {
                $model {
                    number: self.number as i128,
                    width: self.width as i128,
                    unit: self.unit as i128,
                    $($round: self.$round as i128,)?
                }
            }
        }

        #[repr(C)]
        #[derive(Clone, Copy)]
        pub struct $answer {
            pub word: $word,
            pub refusal: u32,
        }

        impl OfModel for $answer {
            type Model = Answer<$model>;

            fn of(model: Answer<$model>) -> $answer {
                $answer {
                    word: OfModel::of(model.word),
                    refusal: model.refusal,
                }
            }

            fn model(self) -> Answer<$model> {
                Answer {
                    word: self.word.model(),
                    refusal: self.refusal,
                }
            }
        }
    };
}

word!(FrostPlain, FrostPlainAnswer, Plain);
word!(FrostHalfUnit, FrostHalfUnitAnswer, HalfUnit);
word!(FrostRoundBit, FrostRoundBitAnswer, RoundBit, round);

#[repr(C)]
#[derive(Clone, Copy)]
pub struct FrostTextAnswer {
    pub word: FrostRoundBit,
    pub refusal: u32,
    pub place: u32,
}

impl OfModel for FrostTextAnswer {
    type Model = TextAnswer;

    fn of(model: TextAnswer) -> FrostTextAnswer {
        FrostTextAnswer {
            word: OfModel::of(model.word),
            refusal: model.refusal,
            place: model.place as u32,
        }
    }

    fn model(self) -> TextAnswer {
        TextAnswer {
            word: self.word.model(),
            refusal: self.refusal,
            place: self.place as i128,
        }
    }
}

#[repr(C)]
#[derive(Clone, Copy)]
pub struct FrostRunningSum {
    pub kept: FrostRoundBit,
    pub depth: u64,
}

impl OfModel for FrostRunningSum {
    type Model = RunningSum;

    fn of(model: RunningSum) -> FrostRunningSum {
        FrostRunningSum {
            kept: OfModel::of(model.kept),
            depth: model.depth as u64,
        }
    }

    fn model(self) -> RunningSum {
        RunningSum::made(self.kept.model(), self.depth as i128)
    }
}

#[repr(C)]
#[derive(Clone, Copy)]
pub struct FrostSumAnswer {
    pub sum: FrostRunningSum,
    pub word: FrostRoundBit,
    pub refusal: u32,
}

impl OfModel for FrostSumAnswer {
    type Model = SumAnswer;

    fn of(model: SumAnswer) -> FrostSumAnswer {
        FrostSumAnswer {
            sum: OfModel::of(model.sum),
            word: OfModel::of(model.word),
            refusal: model.refusal,
        }
    }

    fn model(self) -> SumAnswer {
        SumAnswer {
            sum: self.sum.model(),
            word: self.word.model(),
            refusal: self.refusal,
        }
    }
}

#[repr(C)]
#[derive(Clone, Copy)]
pub struct FrostTaps {
    pub taps: [FrostRoundBit; TAPS],
}

#[repr(C)]
#[derive(Clone, Copy)]
pub struct FrostBank {
    pub channels: [FrostTaps; CHANNELS],
}

impl OfModel for FrostBank {
    type Model = Bank;

    fn of(model: Bank) -> FrostBank {
        let taps = |row: Row| FrostTaps {
            taps: row.map(OfModel::of),
        };
        FrostBank {
            channels: model.map(taps),
        }
    }

    fn model(self) -> Bank {
        self.channels.map(|row| row.taps.map(OfModel::model))
    }
}

#[repr(C)]
#[derive(Clone, Copy)]
pub struct FrostWindow {
    pub samples: [FrostRoundBit; TAPS],
}

impl OfModel for FrostWindow {
    type Model = Row;

    fn of(model: Row) -> FrostWindow {
        FrostWindow {
            samples: model.map(OfModel::of),
        }
    }

    fn model(self) -> Row {
        self.samples.map(OfModel::model)
    }
}

#[repr(C)]
#[derive(Clone, Copy)]
pub struct FrostFileHead {
    pub refusal: u32,
    pub kind: u32,
    pub width: u32,
    pub unit: i32,
    pub count: u32,
}

impl OfModel for FrostFileHead {
    type Model = Head;

    fn of(model: Head) -> FrostFileHead {
        FrostFileHead {
            refusal: model.refusal,
            kind: model.kind as u32,
            width: model.width as u32,
            unit: model.unit as i32,
            count: model.count as u32,
        }
    }

    fn model(self) -> Head {
        Head {
            kind: self.kind as i128,
            width: self.width as i128,
            unit: self.unit as i128,
            count: self.count as i128,
            refusal: self.refusal,
        }
    }
}

#[repr(C)]
#[derive(Clone, Copy)]
pub struct FrostWritten {
    pub bytes: u64,
    pub refusal: u32,
}

impl OfModel for FrostWritten {
    type Model = Written;

    fn of(model: Written) -> FrostWritten {
        FrostWritten {
            bytes: model.bytes as u64,
            refusal: model.refusal,
        }
    }

    fn model(self) -> Written {
        Written {
            bytes: self.bytes as i128,
            refusal: self.refusal,
        }
    }
}

/// The model has the bits of each float, and by these the two zeros differ.
#[repr(C)]
#[derive(Clone, Copy)]
pub struct FrostReading {
    pub lowest: f32,
    pub highest: f32,
    pub first: f32,
}

impl OfModel for FrostReading {
    type Model = Reading;

    fn of(model: Reading) -> FrostReading {
        FrostReading {
            lowest: f32::from_bits(model.lowest),
            highest: f32::from_bits(model.highest),
            first: f32::from_bits(model.first),
        }
    }

    fn model(self) -> Reading {
        Reading {
            lowest: self.lowest.to_bits(),
            highest: self.highest.to_bits(),
            first: self.first.to_bits(),
        }
    }
}

#[repr(C)]
#[derive(Clone, Copy)]
pub struct FrostReadingAnswer {
    pub reading: FrostReading,
    pub refusal: u32,
}

impl OfModel for FrostReadingAnswer {
    type Model = ReadingAnswer;

    fn of(model: ReadingAnswer) -> FrostReadingAnswer {
        FrostReadingAnswer {
            reading: OfModel::of(model.reading),
            refusal: model.refusal,
        }
    }

    fn model(self) -> ReadingAnswer {
        ReadingAnswer {
            reading: self.reading.model(),
            refusal: self.refusal,
        }
    }
}

#[repr(C)]
#[derive(Clone, Copy)]
pub struct FrostBlockSumAnswer {
    pub word: FrostRoundBit,
    pub index: u64,
    pub refusal: u32,
}

impl OfModel for FrostBlockSumAnswer {
    type Model = BlockSumAnswer;

    fn of(model: BlockSumAnswer) -> FrostBlockSumAnswer {
        FrostBlockSumAnswer {
            word: OfModel::of(model.word),
            index: model.index as u64,
            refusal: model.refusal,
        }
    }

    fn model(self) -> BlockSumAnswer {
        BlockSumAnswer {
            word: self.word.model(),
            index: self.index as i128,
            refusal: self.refusal,
        }
    }
}
