//! Banks worked by hand from document 02, Ask 1. Here both programs are held
//! against these answers, not only against each other; so the numbers stand here
//! as they stand there, and not under the model's names.

use super::bad_banks::WRONG;
use super::bank_case::{compare, BankCase, Row};
use super::bank_words::alike;
use super::case::{Operand, Reply};
use super::random::Random;
use super::tally::Record;
use crate::model::words::Fields;

/// The eight taps and the eight samples of a line, as (number, round bit).
type Words = [(i64, u8); 8];

fn row(words: Words, width: u32, unit: i32) -> Row {
    words.map(|(number, round)| alike(number, round, width, unit)[0])
}

/// The line in each of the four channels; all taps of the others are wrong.
fn in_each_channel(line: &str, taps: Row, window: Row, expected: Reply, record: &mut Record) {
    for channel in 0..4 {
        let mut case = BankCase {
            bank: [[WRONG; 8]; 4],
            window,
            channel,
        };
        *case.taps() = taps;
        expect(line, &case, expected, record);
    }
}

fn expect(line: &str, case: &BankCase, expected: Reply, record: &mut Record) {
    let reply = compare(case, record);
    record.check(reply == expected, || {
        format!(
            "the bank worked by hand, {}\n  library: {:?}\n  by hand: {:?}",
            line, reply, expected
        )
    });
}

fn is(number: i128, round: i128, unit: i128) -> Reply {
    let word = Fields {
        number,
        round,
        width: 20,
        unit,
    };
    Reply {
        word,
        sum: None,
        refusal: 0,
    }
}

/// A refusal returns the blank word.
fn no(refusal: u32) -> Reply {
    let word = Fields {
        number: 0,
        round: 0,
        width: 2,
        unit: 0,
    };
    Reply {
        word,
        sum: None,
        refusal,
    }
}

/// Taps of unit 3 and samples of unit -5, so an output of unit 3 - 5 + 11 = 9.
fn line(line: &str, taps: Words, samples: Words, number: i128, round: i128, record: &mut Record) {
    let (taps, window) = (row(taps, 12, 3), row(samples, 16, -5));
    in_each_channel(line, taps, window, is(number, round, 9), record);
}

#[rustfmt::skip] // one line by hand, one line here
pub fn done(_: &mut Random, r: &mut Record) {
    // Nothing, and the other nothing: (-1,1) times (9,1) is (-1,1), and so is the sum of eight.
    line("zeros", [(0, 0); 8], [(0, 0); 8], 0, 0, r);
    line("minus one and one", [(-1, 1); 8], [(9, 1); 8], -1, 1, r);
    // 8 * 1152 = 9216 = 4 * 2048 + 1024.
    line("a digit below", [(1, 0); 8], [(1152, 0); 8], 4, 1, r);
    // (128,0) eight times is (1024,0).
    line("half a unit", [(2, 0); 8], [(64, 0); 8], 0, 1, r);
    // The same values, but (127,1) eight times is (8 * 127 + 7, 1) = (1023,1).
    line("half a unit, with round bits", [(1, 1); 8], [(63, 1); 8], 0, 0, r);
    // (127,1) seven times and (130,0) make (7 * 127 + 6 + 130, 1) = (1025,1).
    let (x, y) = ((63, 1), (65, 0));
    line("half a unit, by the carries", [(1, 1); 8], [x, x, x, y, x, x, x, x], 0, 1, r);
    // (-129,1) eight times is (8 * -129 + 7, 1) = (-1025,1); -1025 = -1 * 2048 + 1023.
    line("half a unit below 0", [(-2, 0); 8], [(64, 0); 8], -1, 0, r);
    // 1000 * (1 + 4 + 9 + .. + 64) = 204000 = 99 * 2048 + 1248; (0,1) to (7,1) are worth 1 to 8.
    let up = |by, round| [1, 2, 3, 4, 5, 6, 7, 8].map(|value| (by * (value - round as i64), round));
    line("round bits of taps", up(1, 1), up(1000, 0), 99, 1, r);
    // 100 * 204 = 20400 = 9 * 2048 + 1968.
    line("round bits of samples", up(100, 0), up(1, 1), 9, 1, r);
    // (1503500,1) + (-108012,0) + (13979301,0) + (-1,1) = (15374789,1); 7507 * 2048 + 453.
    let (z, taps) = ((0, 0), [(500, 1), (-12, 0), (-700, 1), (-1, 1)]);
    let samples = [(3000, 1), (9000, 1), (-20000, 1), (5, 0)];
    line("both signs", [taps[0], taps[1], taps[2], taps[3], z, z, z, z],
        [samples[0], samples[1], samples[2], samples[3], z, z, z, z], 7507, 0, r);
    line("both signs, from the other end", [z, z, z, z, taps[3], taps[2], taps[1], taps[0]],
        [z, z, z, z, samples[3], samples[2], samples[1], samples[0]], 7507, 0, r);
    // (2^26 - 1, 1) eight times is (2^29 - 1, 1), and (-2^26, 0) eight times (-2^29, 0).
    line("the highest", [(-2048, 0); 8], [(-32768, 0); 8], 262_143, 1, r);
    line("the lowest", [(2047, 1); 8], [(-32768, 0); 8], -262_144, 0, r);
}

/// Good words, whose output is (0,0).
fn ones(width: u32, unit: i32) -> Row {
    alike(1, 0, width, unit)
}

/// The row with other words in some places.
fn with(mut row: Row, others: &[(usize, Operand)]) -> Row {
    for &(place, word) in others {
        row[place] = word;
    }
    row
}

pub fn refused(_: &mut Random, record: &mut Record) {
    let (taps, window) = (ones(12, 0), ones(16, 0));
    for channel in [4, 5, 255, 1 << 31, u32::MAX] {
        let good = BankCase {
            bank: [taps; 4],
            window,
            channel,
        };
        let wrong = BankCase {
            bank: [[WRONG; 8]; 4],
            window: [WRONG; 8],
            channel,
        };
        expect("channel over 3", &good, no(17), record);
        expect("channel over 3, all wrong", &wrong, no(17), record);
    }
    of_words(taps, window, record);
    of_formats(record);
}

/// 1, 2 and 3, in the order of the words.
#[rustfmt::skip]
fn of_words(taps: Row, window: Row, r: &mut Record) {
    let (tap, sample) = (taps[0], window[0]);
    let wide = |word| Operand { width: 64, ..word };
    let far = |word| Operand { unit: 128, ..word };
    let bad = |word| Operand { round: 2, ..word };
    let mut each = |line, taps, window, cause| in_each_channel(line, taps, window, no(cause), r);
    each("tap 0 is 2048", with(taps, &[(0, alike(2048, 0, 12, 0)[0])]), window, 3);
    each("tap 1's 3, tap 3's 1", with(taps, &[(1, bad(tap)), (3, wide(tap))]), window, 3);
    each("tap 1's 1, tap 3's 3", with(taps, &[(1, wide(tap)), (3, bad(tap))]), window, 1);
    each("tap 7's 1, 2, 3", with(taps, &[(7, WRONG)]), window, 1);
    each("tap 0's 2, 3", with(taps, &[(0, far(bad(tap)))]), window, 2);
    let bad_tap = with(taps, &[(7, bad(tap))]);
    each("tap 7's 3, sample 0's 1", bad_tap, with(window, &[(0, wide(sample))]), 3);
    let far_first = with(window, &[(5, far(sample)), (6, wide(sample))]);
    each("sample 5's 2, sample 6's 1", taps, far_first, 2);
    each("samples are -32769", taps, alike(-32769, 0, 16, 0), 3);
    each("sample 7's 3, taps of 13", ones(13, 0), with(window, &[(7, bad(sample))]), 3);
}

/// 4 and 7, and the last units that are done.
#[rustfmt::skip]
fn of_formats(r: &mut Record) {
    let mut each = |line, taps, window, expected| in_each_channel(line, taps, window, expected, r);
    each("taps of 13", ones(13, 0), ones(16, 0), no(4));
    each("taps of 13 and samples of 15, as wide a product", ones(13, 0), ones(15, 0), no(4));
    let unlike = with(ones(12, 127), &[(7, ones(11, 127)[0])]);
    each("tap 7 of 11, the products' unit 128", unlike, ones(16, 1), no(4));
    let unlike = with(ones(16, 20), &[(0, ones(16, 0)[0])]);
    each("sample 0's unit, the output's unit 131", ones(12, 100), unlike, no(4));
    each("the products' unit 128", ones(12, 127), ones(16, 1), no(7));
    each("the products' unit -128, the output's -117", ones(12, -64), ones(16, -64), no(7));
    each("the products' unit 117, the output's 128", ones(12, 127), ones(16, -10), no(7));
    each("the output's unit 127", ones(12, 127), ones(16, -11), is(0, 0, 127));
    each("the products' unit -127", ones(12, -127), ones(16, 0), is(0, 0, -116));
}
