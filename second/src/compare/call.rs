//! An operation on words, called in both programs on one case or on many.

use super::case::{Case, Operand, Reply};
use super::fall;
use super::operations::OPERATIONS;
use super::tally::Record;

/// Calls both programs on one case and compares all that they answer. The
/// library's answer is given back, for checks that go from call to call.
pub fn compare(row: usize, case: &Case, record: &mut Record) -> Reply {
    let operation = &OPERATIONS[row];
    fall::about_to_call(operation.name, Some(case), &[]);
    let library = (operation.library)(case);
    fall::back();
    let second = (operation.second)(case);
    record.answer(row, library.refusal);
    record.check(library == second, || {
        format!(
            "{}\n  case:    {}\n  library: {:?}\n  second:  {:?}",
            operation.name,
            case.describe(operation.takes),
            library,
            second
        )
    });
    library
}

/// Every combination of the operands that the operation takes. The depths go
/// with the width of the first operand.
pub fn compare_all(
    row: usize,
    firsts: &[Operand],
    depths: fn(u32) -> Vec<u64>,
    seconds: &[Operand],
    record: &mut Record,
) {
    let takes = OPERATIONS[row].takes;
    let seconds = if takes.second {
        seconds
    } else {
        &[Operand::BLANK]
    };
    for &first in firsts {
        let depths = if takes.depth {
            depths(first.width)
        } else {
            vec![0]
        };
        for depth in depths {
            for &second in seconds {
                let case = Case {
                    second,
                    ..Case::deep(first, depth)
                };
                compare(row, &case, record);
            }
        }
    }
}
