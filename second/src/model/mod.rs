//! The second program alone: document 01 once more, and of document 02 what has
//! landed, plain and slow.
//! Written from these documents alone; it shares nothing with crates/, and
//! knows nothing of the comparison.

pub mod bank;
pub mod binary32;
pub mod binary64;
pub mod block_file;
pub mod block_sum;
pub mod causes;
pub mod digit_text;
pub mod digits;
pub mod half_unit;
pub mod kinds;
pub mod layout;
pub mod listing;
pub mod long;
pub mod moves;
pub mod reading;
pub mod round_bit;
pub mod running_sum;
pub mod words;
