//! What an import is asked of, and the three imports in both programs on one case.

use super::case::Reply;
use super::fall;
use super::library::*;
use super::operations::{HALF_UNIT_IMPORT, PLAIN_IMPORT, ROUND_BIT_IMPORT};
use super::tally::Record;
use crate::model::binary64;
use crate::model::causes::DONE;
use crate::model::words::{Fields, BLANK};

/// A sample, and the width and unit that are wanted of it.
#[derive(Clone, Copy, Debug)]
pub struct Binary64Case {
    pub bits: u64,
    pub width: u32,
    pub unit: i32,
}

impl Binary64Case {
    pub fn with_bits(self, bits: u64) -> Binary64Case {
        Binary64Case { bits, ..self }
    }

    /// The bits, and what this machine takes them to be worth.
    pub fn describe(&self) -> String {
        format!(
            "bits {:016X} ({:e}), width {}, unit {}",
            self.bits,
            f64::from_bits(self.bits),
            self.width,
            self.unit
        )
    }

    /// What the import answers when it is done.
    pub fn done(&self, number: i128) -> Reply {
        let word = Fields {
            number,
            round: 0,
            width: self.width as i128,
            unit: self.unit as i128,
        };
        Reply {
            word,
            sum: None,
            refusal: DONE,
        }
    }

    /// Done with a number, or refused.
    pub fn reply(&self, outcome: Outcome) -> Reply {
        match outcome {
            Ok(number) => self.done(number as i128),
            Err(refusal) => refused(refusal),
        }
    }
}

/// The number that a case must give, or else its refusal.
pub type Outcome = Result<i64, u32>;

/// "A refusal returns the blank word".
pub fn refused(refusal: u32) -> Reply {
    Reply {
        word: BLANK,
        sum: None,
        refusal,
    }
}

/// One of the three: its row in the tally, and its call in each program.
pub struct Import {
    pub name: &'static str,
    row: usize,
    library: fn(&Binary64Case) -> Reply,
    second: fn(&Binary64Case) -> Reply,
}

macro_rules! import {
    ($library:ident, $second:path, $row:ident) => {
        Import {
            name: stringify!($library),
            row: $row,
            library: |c| unsafe { $library(c.bits, c.width, c.unit) }.model().into(),
            second: |c| $second(c.bits, c.width as i128, c.unit as i128).into(),
        }
    };
}

#[rustfmt::skip] // one import, one line
pub const PLAIN: Import = import!(frost_plain_from_binary64, binary64::to_plain, PLAIN_IMPORT);
#[rustfmt::skip]
pub const ROUND_BIT: Import =
    import!(frost_round_bit_from_binary64, binary64::to_round_bit, ROUND_BIT_IMPORT);
#[rustfmt::skip]
pub const HALF_UNIT: Import =
    import!(frost_half_unit_from_binary64, binary64::to_half_unit, HALF_UNIT_IMPORT);

/// Those that take the nearest whole count.
pub const WHOLE: [Import; 2] = [PLAIN, ROUND_BIT];

/// Calls both programs and compares all that they answer. The library's answer is
/// given back, for checks of more than one call.
pub fn compare(import: &Import, case: &Binary64Case, record: &mut Record) -> Reply {
    fall::about_to_call_import(import.name, case);
    let library = (import.library)(case);
    fall::back();
    let second = (import.second)(case);
    record.answer(import.row, library.refusal);
    record.check(library == second, || {
        format!(
            "{}\n  case:    {}\n  library: {:?}\n  second:  {:?}",
            import.name,
            case.describe(),
            library,
            second
        )
    });
    library
}

/// The sample to a word of each kind.
pub fn compare_all(case: &Binary64Case, record: &mut Record) -> [Reply; 3] {
    [&PLAIN, &ROUND_BIT, &HALF_UNIT].map(|import| compare(import, case, record))
}

/// Compares, and holds the library's answer against another that it must be.
pub fn expect(
    what: &str,
    import: &Import,
    case: &Binary64Case,
    expected: Reply,
    record: &mut Record,
) {
    let library = compare(import, case, record);
    record.check(library == expected, || {
        format!(
            "{}, {}\n  case:    {}\n  library: {:?}\n  must be: {:?}",
            what,
            import.name,
            case.describe(),
            library,
            expected
        )
    });
}

/// What the two that take a whole count must give, and what half-unit must.
pub fn expect_all(
    what: &str,
    case: &Binary64Case,
    whole: Reply,
    half_odd: Reply,
    record: &mut Record,
) {
    for import in &WHOLE {
        expect(what, import, case, whole, record);
    }
    expect(what, &HALF_UNIT, case, half_odd, record);
}
