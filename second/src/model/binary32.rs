//! Document 02, Ask 4: the IEEE 754 binary32 number of a whole number, as its 32
//! bits: 1 digit of sign, 8 of exponent, 23 of fraction. It is put together from
//! the standard's definition, and no floating-point number has a part in it.
//! Written from the standard alone; it shares nothing with crates/.

use super::digits::power;

/// All digits 0. The negative zero has the sign 1, so as bits they differ.
pub const POSITIVE_ZERO: u32 = 0;

/// Below the sign stands the exponent, and below the exponent the fraction.
const SIGN_AT: i128 = 31;
const FRACTION_DIGITS: i128 = 23;

/// What is added to an exponent before it is stored.
const BIAS: i128 = 127;

/// The pattern of sign s, stored exponent E (1 to 254) and fraction F is worth
/// (-1)^s * 2^(E - 127) * (1 + F / 2^23). None if no pattern is worth exactly the
/// number. Only asked of numbers of a reading's size.
pub fn of_whole(number: i128) -> Option<u32> {
    if number == 0 {
        return Some(POSITIVE_ZERO);
    }
    let sign = if number < 0 { 1 } else { 0 };
    let size = number.abs();
    let exponent = place_of_highest_digit(size);
    // size = 2^exponent * (1 + F / 2^23), so size * 2^23 = 2^exponent * (2^23 + F).
    let scaled = size * power(FRACTION_DIGITS);
    if scaled % power(exponent) != 0 {
        return None;
    }
    let fraction = scaled / power(exponent) - power(FRACTION_DIGITS);
    let stored = exponent + BIAS;
    Some((sign * power(SIGN_AT) + stored * power(FRACTION_DIGITS) + fraction) as u32)
}

/// The e with 2^e <= size < 2^(e+1), of a size from 1 up.
fn place_of_highest_digit(size: i128) -> i128 {
    let mut place = 0;
    while power(place + 1) <= size {
        place += 1;
    }
    place
}
