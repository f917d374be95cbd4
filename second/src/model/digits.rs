//! The digits of whole numbers in two's complement.
//! Written from document 01 alone; it shares nothing with crates/.
//! Every whole number is an i128, so nothing here can overflow.

/// 2^d.
pub fn power(d: i128) -> i128 {
    1 << d
}

/// floor(number / 2^d): toward minus infinity, never toward zero.
pub fn floor(number: i128, d: i128) -> i128 {
    number.div_euclid(power(d))
}

/// Digit i of the number in two's complement, 0 or 1.
pub fn digit(number: i128, i: i128) -> i128 {
    floor(number, i).rem_euclid(2)
}

/// The low d digits, d >= 1, read as two's complement.
pub fn low_digits(number: i128, d: i128) -> i128 {
    let unsigned = number.rem_euclid(power(d));
    if digit(number, d - 1) == 1 {
        unsigned - power(d)
    } else {
        unsigned
    }
}

/// The number with its lowest digit made 0.
pub fn clear_lowest_digit(number: i128) -> i128 {
    number - digit(number, 0)
}
