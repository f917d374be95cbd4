//! Block sums worked by hand from documents 01 and 02. Here both programs are held
//! against these answers, not only against each other; so the numbers stand here as
//! they stand there, and not under the model's names.
//!
//! Blocks are halved so: 2 is 1 and 1, 3 is 1 and 2, 4 is 2 and 2, 5 is 2 and 3, 6 is 3
//! and 3, 7 is 3 and 4. A step is (a + b + (ra and rb), ra or rb).

use super::block_sum_case::{done, expect, refused};
use super::random::Random;
use super::reading_records::{Entry, Records};
use super::tally::Record;

/// Width, the records, and their sum; none stands for 8.
type Line = (u32, &'static [Entry], Option<Entry>);

/// Which half comes first, and that it is halves: width 2 has -2 to 1.
#[rustfmt::skip] // one line by hand, one line here
const HALVES: &[Line] = &[
    (2, &[], Some((0, 0))),
    (48, &[], Some((0, 0))),
    (2, &[(1, 1)], Some((1, 1))),
    (2, &[(-2, 0)], Some((-2, 0))),
    (2, &[(-1, 1)], Some((-1, 1))),
    (2, &[(1, 0), (-2, 0)], Some((-1, 0))),
    // 1, then 1 - 1 = 0: 1. From left to right 1 + 1 would be past.
    (2, &[(1, 0), (1, 0), (-1, 0)], Some((1, 0))),
    // 1, then -1 + 1 = 0: 1.
    (2, &[(1, 0), (-1, 0), (1, 0)], Some((1, 0))),
    // -1, then 1 + 1 is past. From left to right it would be 0, then 1.
    (2, &[(-1, 0), (1, 0), (1, 0)], None),
    // 1 + 1 is past. By one and three it would be 1, and 1 - 2 = -1: 0.
    (2, &[(1, 0), (1, 0), (-1, 0), (-1, 0)], None),
    // 1 - 1 = 0, 1 - 1 = 0.
    (2, &[(1, 0), (-1, 0), (1, 0), (-1, 0)], Some((0, 0))),
    // -1 + 1 = 0; then 1, and 1 - 1 = 0: 1. Of three and two the first would be -1 and 1 + 1.
    (2, &[(-1, 0), (1, 0), (1, 0), (1, 0), (-1, 0)], Some((1, 0))),
    // 1 + 1 is past. Of three and two it would be 1 and 1 - 1, so 1, then 0 - 1: 0.
    (2, &[(1, 0), (1, 0), (-1, 0), (0, 0), (-1, 0)], None),
    // 1 and 1 - 1: 1. -1 and 1 - 1: -1. By twos 1 + 1 would be past.
    (2, &[(1, 0), (1, 0), (-1, 0), (-1, 0), (1, 0), (-1, 0)], Some((0, 0))),
    // 1 and 1 - 1: 1. Then -1 + 1 = 0 and -1 + 0 = -1: -1. Of four and three 1 + 1 would be past.
    (2, &[(1, 0), (1, 0), (-1, 0), (-1, 0), (1, 0), (-1, 0), (0, 0)], Some((0, 0))),
    // -1, and 1 + 1 is past. Of four and three it would be 0 and 0, then 0.
    (2, &[(-1, 0), (1, 0), (1, 0), (-1, 0), (0, 0), (0, 0), (0, 0)], None),
];

/// P1 to P4, then what becomes of the round bits.
#[rustfmt::skip]
const ROUND_BITS: &[Line] = &[
    (5, &[(3, 1), (4, 1)], Some((8, 1))),
    (5, &[(15, 0), (0, 1)], Some((15, 1))),
    (5, &[(15, 0), (1, 0)], None),
    (5, &[(-16, 0), (-1, 1)], None),
    // The round bit of any one record is the sum's.
    (2, &[(0, 1), (0, 0), (0, 0)], Some((0, 1))),
    (2, &[(0, 0), (0, 1), (0, 0)], Some((0, 1))),
    (2, &[(0, 0), (0, 0), (0, 1)], Some((0, 1))),
    // (-1,1), then 1 - 1.
    (2, &[(1, 0), (-1, 1), (0, 0)], Some((0, 1))),
    // Two are carried: 0 + 0 + 1.
    (2, &[(0, 1), (0, 1)], Some((1, 1))),
    // (0,1), then (1,1): 0 + 1 + 1 is past.
    (2, &[(0, 1), (0, 1), (0, 1)], None),
    // (1,1) twice: 1 + 1 + 1.
    (4, &[(0, 1), (0, 1), (0, 1), (0, 1)], Some((3, 1))),
    // (3,1) twice: 3 + 3 + 1.
    (4, &[(0, 1); 8], Some((7, 1))),
    // (3,1); then (1,1), and (0,1) with (1,1) is (2,1), so 1 + 2 + 1: (4,1). 3 + 4 + 1 is past.
    (4, &[(0, 1); 9], None),
    // -1 - 1 + 1 at every step.
    (2, &[(-1, 1); 7], Some((-1, 1))),
    (2, &[(-1, 1); 1_000], Some((-1, 1))),
    // -1 + 0 + 1.
    (2, &[(-1, 1), (0, 1)], Some((0, 1))),
    // (1,1) and (2,1): 1 + 2 + 1. Without the carry it would fit.
    (3, &[(1, 1), (0, 0), (2, 1), (0, 0)], None),
    // (-4,1) and (-1,1): -4 - 1 + 1. Without the carry it would not.
    (3, &[(-4, 1), (0, 0), (-1, 1), (0, 0)], Some((-4, 1))),
    // (-1,1), then -4 - 1 is past, though the value -4 would fit.
    (3, &[(-4, 0), (-1, 1), (0, 0)], None),
    // (0,1), then 3 + 0: the value 4 would not fit, the number does.
    (3, &[(3, 0), (0, 1), (0, 0)], Some((3, 1))),
];

/// Width 3 has -4 to 3. Where a step is past, what the records make together stands
/// with it.
#[rustfmt::skip]
const STEPS: &[Line] = &[
    // Only in the first half: 3 + 1. Together 2.
    (3, &[(3, 0), (1, 0), (-1, 0), (-1, 0)], None),
    // Only in the second. Together 2.
    (3, &[(-1, 0), (-1, 0), (3, 0), (1, 0)], None),
    // -4 - 1 in the first, 1 + 1 in the second. Together -3.
    (3, &[(-4, 0), (-1, 0), (1, 0), (1, 0)], None),
    // Only the last: 2 + 2, and -3 - 2.
    (3, &[(1, 0), (1, 0), (1, 0), (1, 0)], None),
    (3, &[(-2, 0), (-1, 0), (-1, 0), (-1, 0)], None),
    // 2 + 1, and -2 - 2: just not past.
    (3, &[(1, 0), (1, 0), (1, 0), (0, 0)], Some((3, 0))),
    (3, &[(-1, 0), (-1, 0), (-1, 0), (-1, 0)], Some((-4, 0))),
    // Past both ways, 4 and -5. Together -1.
    (3, &[(3, 0), (1, 0), (-4, 0), (-1, 0)], None),
    // Only by a carry in the first half: 3 + 0 + 1. Together 3 - 2 + 1 = 2.
    (3, &[(3, 1), (0, 1), (-1, 0), (-1, 0)], None),
    // Only in the last quarter: 3 + 1. Together 3.
    (3, &[(0, 0), (0, 0), (0, 0), (0, 0), (-1, 0), (0, 0), (3, 0), (1, 0)], None),
    // The same numbers in another order: -1 + 3 = 2, and 1 + 0 = 1.
    (3, &[(0, 0), (0, 0), (0, 0), (0, 0), (-1, 0), (3, 0), (1, 0), (0, 0)], Some((3, 0))),
];

/// Width 2 has -2 to 1, width 48 has -2^47 to 2^47 - 1 = 140,737,488,355,327.
#[rustfmt::skip]
const ENDS: &[Line] = &[
    (2, &[(1, 0), (0, 1)], Some((1, 1))),
    (2, &[(1, 1), (0, 1)], None),
    (2, &[(1, 1), (-2, 0)], Some((-1, 1))),
    (2, &[(1, 1), (-2, 1)], Some((0, 1))),
    (2, &[(-2, 1), (-1, 1)], Some((-2, 1))),
    (2, &[(-2, 0), (-1, 1)], None),
    (2, &[(1, 1), (1, 1)], None),
    (2, &[(-2, 0), (-2, 0)], None),
    (48, &[(-140_737_488_355_328, 1)], Some((-140_737_488_355_328, 1))),
    (48, &[(140_737_488_355_327, 1)], Some((140_737_488_355_327, 1))),
    (48, &[(140_737_488_355_327, 0), (0, 1)], Some((140_737_488_355_327, 1))),
    (48, &[(140_737_488_355_327, 0), (1, 0)], None),
    (48, &[(140_737_488_355_327, 1), (0, 1)], None),
    (48, &[(140_737_488_355_327, 1), (-1, 1)], Some((140_737_488_355_327, 1))),
    (48, &[(-140_737_488_355_328, 0), (-1, 0)], None),
    (48, &[(-140_737_488_355_328, 0), (-1, 1)], None),
    (48, &[(-140_737_488_355_328, 1), (-1, 1)], Some((-140_737_488_355_328, 1))),
    (48, &[(140_737_488_355_327, 1), (-140_737_488_355_328, 1)], Some((0, 1))),
    // 2^46 and 2^46 - 1, then twice 2^46.
    (48, &[(70_368_744_177_664, 0), (70_368_744_177_663, 0)], Some((140_737_488_355_327, 0))),
    (48, &[(70_368_744_177_664, 0), (70_368_744_177_664, 0)], None),
    // 2^46 - 1 twice and a carry: 2^47 - 1.
    (48, &[(70_368_744_177_663, 1), (70_368_744_177_663, 1)], Some((140_737_488_355_327, 1))),
    // -2^47 and 2^47 - 1 in each half, so -1 twice.
    (48, &[(-140_737_488_355_328, 0), (140_737_488_355_327, 0),
           (140_737_488_355_327, 0), (-140_737_488_355_328, 0)], Some((-2, 0))),
];

/// At unit 0, at both ends, and beside one.
pub fn by_hand(_: &mut Random, record: &mut Record) {
    for &(width, entries, sum) in [HALVES, ROUND_BITS, STEPS, ENDS].into_iter().flatten() {
        let records = Records::of(entries);
        for unit in [0, -127, 127, 126] {
            let expected = match sum {
                Some((number, round)) => done(width, unit, number as i128, round as i128),
                None => refused(8, 0),
            };
            let case = records.block(width, unit);
            expect("a block sum worked by hand", &case, expected, record);
        }
    }
}
