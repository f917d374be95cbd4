//! Document 01, section "Refusal numbers": the table, with what document 02
//! adds to it (13, 14, 15 and 17) and changes in it (9), and the order in which
//! several causes are named.
//! Written from documents 01 and 02 alone; it shares nothing with crates/.

/// Makes a name of each number, and the list of them all.
macro_rules! causes {
    ($($number:literal $name:ident,)*) => {
        $(pub const $name: u32 = $number;)*

        /// Every cause there is, in the order of the table; numbers may leave
        /// gaps, so a number is no place in this list.
        pub const CAUSES: &[u32] = &[$($name),*];
    };
}

/// No cause: the operation is done.
pub const DONE: u32 = 0;

causes! {
    1 WIDTH_OUTSIDE,
    2 UNIT_OUTSIDE,
    3 NUMBER_OUTSIDE,
    4 OPERANDS_DIFFER,
    5 DEPTH_OUTSIDE,
    6 ANSWER_TOO_WIDE,
    7 ANSWER_UNIT_OUTSIDE,
    8 ANSWER_DOES_NOT_FIT,
    9 SIGN_REPEATED,
    10 BUFFER_TOO_SHORT,
    11 MARK_OR_VERSION_WRONG,
    12 LENGTH_KIND_OR_COUNT_WRONG,
    13 BYTE_WRONG,
    14 RUN_WRONG,
    15 NOT_FINITE,
    17 CHANNEL_OUTSIDE,
}

/// The refusal if the condition holds, else 0: lets an operation list its
/// causes in the order the document gives them.
pub fn refuse_if(condition: bool, refusal: u32) -> u32 {
    if condition {
        refusal
    } else {
        DONE
    }
}

/// The first cause in a list that stands in the document's order.
pub fn first_of(causes: &[u32]) -> u32 {
    for &cause in causes {
        if cause != DONE {
            return cause;
        }
    }
    DONE
}
