//! The imports against the C library's own arithmetic: where `ldexp` can count the
//! units without loss, `nearbyint` is the nearest whole count, a tie going to the
//! even one, since no program here leaves the rounding mode that it starts in. The
//! half-odd count is found of the same count by this machine's floor.

use super::binary64_case::{expect_all, refused, Binary64Case};
use super::binary64_random::{any_in_reach, any_tie, good_format};
use super::case::Reply;
use super::random::Random;
use super::tally::Record;

const CASES: u64 = 80_000;

extern "C" {
    fn nearbyint(x: f64) -> f64;
    fn ldexp(x: f64, n: i32) -> f64;
}

pub fn by_the_c_library(random: &mut Random, record: &mut Record) {
    for _ in 0..CASES {
        let case = match random.below(4) {
            0 => good_format(random).with_bits(random.next()),
            1 => any_tie(random),
            _ => any_in_reach(random),
        };
        if let Some(count) = count(&case) {
            let whole = in_width(&case, unsafe { nearbyint(count) });
            let half_odd = in_width(&case, half_odd(count));
            expect_all("the C library", &case, whole, half_odd, record);
        }
    }
}

/// The count of units, if it is a binary64 number. Divided by a power of 2 only the
/// exponent changes, unless the count passes the greatest number, and then it is
/// infinite, or is a subnormal that lost digits. Multiplied by the power again such
/// a one is not the sample, since nothing is lost on the way up. What is not finite
/// has no finite count.
fn count(case: &Binary64Case) -> Option<f64> {
    let sample = f64::from_bits(case.bits);
    let count = unsafe { ldexp(sample, -case.unit) };
    let is_exact = count.is_finite() && unsafe { ldexp(count, case.unit) } == sample;
    is_exact.then_some(count)
}

/// The number w of the nearest w + 1/2: below a count that is not whole the floor,
/// and else the even one of the count and the one before it. From 2^53 on every
/// binary64 number is whole and even.
fn half_odd(count: f64) -> f64 {
    if count.floor() != count || count % 2.0 == 0.0 {
        count.floor()
    } else {
        count - 1.0
    }
}

/// Of a whole number; none that a word has is so large that the cast would not
/// give it exactly, and larger ones stay larger.
fn in_width(case: &Binary64Case, number: f64) -> Reply {
    let number = number as i128;
    let half = 1i128 << (case.width - 1);
    if (-half..half).contains(&number) {
        case.done(number)
    } else {
        refused(8)
    }
}
