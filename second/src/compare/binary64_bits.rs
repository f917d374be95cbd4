//! Binary64 numbers as their bits, put together in whole-number arithmetic from
//! the standard's definition. The second program's reading of bits is not asked,
//! so the numbers stand here as they stand in the standard.

use super::random::Random;

pub const SIGN: u64 = 1 << 63;
pub const FRACTION: u64 = (1 << 52) - 1;
/// All digits of the exponent are 1; with any fraction but 0 a not-a-number.
pub const INFINITY: u64 = 2047 << 52;
pub const QUIET: u64 = 1 << 51;

/// The bits of number * 2^exponent, if a binary64 number is worth exactly that.
pub fn of_whole(number: i128, exponent: i32) -> Option<u64> {
    let sign = if number < 0 { SIGN } else { 0 };
    let size = number.unsigned_abs();
    if size == 0 {
        return Some(0);
    }
    // As an odd number times a power of 2, which can be written in one way only.
    let zeros = size.trailing_zeros();
    let (odd, exponent) = (size >> zeros, exponent + zeros as i32);
    let digits = 128 - odd.leading_zeros();
    let highest = exponent + digits as i32 - 1;
    if digits > 53 || highest > 1023 || exponent < -1074 {
        return None;
    }
    let odd = odd as u64;
    Some(if highest >= -1022 {
        // 1.F * 2^highest: the highest of the 53 digits is not stored.
        let stored = (highest + 1023) as u64;
        sign | stored << 52 | (odd << (53 - digits)) & FRACTION
    } else {
        // 0.F * 2^-1022: the lowest digit is worth 2^-1074.
        sign | odd << (exponent + 1074)
    })
}

/// As above, of so many halves of a unit, which are known to have one.
pub fn of_halves(halves: i128, unit: i32) -> u64 {
    of_whole(halves, unit - 1).expect("so many halves that have a binary64 number")
}

/// The number with all but its 53 highest digits made 0.
pub fn with_53_digits(number: i128) -> i128 {
    let digits = 128 - number.unsigned_abs().leading_zeros();
    let low = (1i128 << digits.saturating_sub(53)) - 1;
    number.signum() * (number.abs() & !low)
}

/// The bits of a finite number, and those of the numbers next to it: beside the
/// zeros the least subnormals of both signs.
pub fn and_beside(bits: u64) -> [u64; 3] {
    match bits & !SIGN {
        0 => [bits, 1, SIGN | 1],
        _ => [bits, bits - 1, bits + 1],
    }
}

pub fn any_sign(random: &mut Random) -> u64 {
    random.next() & SIGN
}

/// Few digits 1, or few digits 0, or any.
pub fn any_fraction(random: &mut Random) -> u64 {
    let any = random.next() & FRACTION;
    match random.below(6) {
        0 => any & random.next() & random.next() & random.next(),
        1 => FRACTION ^ (any & random.next() & random.next() & random.next()),
        2 => FRACTION & (any << random.below(52)),
        _ => any,
    }
}

/// Any finite number whose highest digit has this place, its sign any; the
/// place is -1022 to 1023.
pub fn with_highest_digit(random: &mut Random, place: i32) -> u64 {
    any_sign(random) | ((place + 1023) as u64) << 52 | any_fraction(random)
}
