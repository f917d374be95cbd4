//! Digit texts read by hand by document 02, Ask 3. Here both programs are held
//! against these answers, not only against each other; so the numbers stand here
//! as they stand there, and not under the model's names.

use super::random::Random;
use super::tally::Record;
use super::texts::expect_read;
use crate::model::digit_text::TextAnswer;
use crate::model::words::RoundBit;

/// A text, the number it is refused with, and the place.
type Line = (&'static [u8], u32, i128);

/// What the ask speaks of: "a stray blank", "two plus signs", "both faults".
#[rustfmt::skip] // one line by hand, one line here
const OF_THE_ASK: &[Line] = &[
    (b"+ +", 13, 1),
    (b"+0+", 9, 2),
    (b"++-", 9, 1),
    (b"+0-0-+?", 13, 6), // the sign at 4 repeats as well
];

#[rustfmt::skip]
const STRANGE: &[Line] = &[
    (b" +", 13, 0),
    (b"+ ", 13, 1),
    (b"  ", 13, 0),
    (b"0+ -", 13, 2),
    (b"-1+x0", 13, 1),
    (b"+-+-+-O", 13, 6), // the letter
    (b"+0-\r\n", 13, 3),
    (b"\xFF0", 13, 0),
    (b"0\xFF", 13, 1),
    (b"+-\0", 13, 2),
    (b"+\xAB", 13, 1), // `+` with the top bit set
    (b"\xB0\xAD", 13, 0), // `0` and `-`
    (b"0+\xE2\x88\x920", 13, 2), // the minus sign of print, which is three bytes
];

#[rustfmt::skip]
const REPEATED: &[Line] = &[
    (b"++", 9, 1),
    (b"--", 9, 1),
    (b"-0-", 9, 2),
    (b"0++0", 9, 2),
    (b"+000+", 9, 4),
    (b"00-00-00", 9, 5),
    (b"-0+0+-", 9, 4),
    (b"+-+-++-+", 9, 5),
    (b"+-+0-0+0+", 9, 8),
    (b"0000--", 9, 5),
    (b"+++", 9, 1), // at 2 too
    (b"++--++", 9, 1), // at 3 and 5 too
    (b"+-0-0-0-", 9, 3), // at 5 and 7 too
    (b"0+-+00-0-+-++", 9, 8), // at 12 too
];

/// The strange byte first, between the two signs, and after them.
#[rustfmt::skip]
const BOTH: &[Line] = &[
    (b"x++", 13, 0),
    (b"+x+", 13, 1),
    (b"++x", 13, 2),
    (b"+0 0+", 13, 2),
    (b"--0?0++", 13, 3),
    (b"0+0+0 ", 13, 5),
    (b" ++ ", 13, 0),
    (b"++--++--*0", 13, 8),
];

/// 63 bytes: what stands before the zeros, how many they are, what stands after.
#[rustfmt::skip]
const LONG: &[(&str, usize, &str, u32, i128)] = &[
    (" ", 62, "", 13, 0),
    ("", 62, " ", 13, 62),
    (" ", 61, " ", 13, 0),
    ("+ ", 60, " ", 13, 1),
    ("", 61, "  ", 13, 61),
    ("+", 61, "+", 9, 62),
    ("-", 61, "-", 9, 62),
    ("++", 61, "", 9, 1),
    ("", 61, "--", 9, 62),
    ("-+", 60, "+", 9, 62),
    ("+-0-", 58, "-", 9, 3), // at 62 too
    ("+", 60, "+x", 13, 62),
    ("++", 60, "?", 13, 62),
    ("x", 60, "++", 13, 0),
];

fn spread(before: &str, zeros: usize, after: &str) -> Vec<u8> {
    [before, &"0".repeat(zeros), after].concat().into_bytes()
}

fn expect(text: &[u8], unit: i32, expected: TextAnswer, record: &mut Record) {
    let line = "a digit text read by hand";
    expect_read(line, text, unit, expected, record);
}

/// A refusal returns the blank word.
fn no(refusal: u32, place: i128) -> TextAnswer {
    let word = RoundBit {
        number: 0,
        round: 0,
        width: 2,
        unit: 0,
    };
    TextAnswer {
        word,
        refusal,
        place,
    }
}

/// The text is so refused in every unit.
fn refuses(text: &[u8], refusal: u32, place: i128, record: &mut Record) {
    for unit in [0, -127, 127] {
        expect(text, unit, no(refusal, place), record);
    }
    outside_the_units(text, record);
}

/// 2 stands before 13 and 9, and has no place.
fn outside_the_units(text: &[u8], record: &mut Record) {
    for unit in [-128, 128] {
        expect(text, unit, no(2, 0), record);
    }
}

#[rustfmt::skip]
pub fn refused(_: &mut Random, r: &mut Record) {
    for lines in [OF_THE_ASK, STRANGE, REPEATED, BOTH] {
        for &(text, refusal, place) in lines {
            refuses(text, refusal, place, r);
        }
    }
    for &(before, zeros, after, refusal, place) in LONG {
        refuses(&spread(before, zeros, after), refusal, place, r);
    }
    let signs = "+-".repeat(31);
    refuses(format!("{}-", signs).as_bytes(), 9, 62, r);
    refuses(format!("{} ", signs).as_bytes(), 13, 62, r);
    refuses(format!(" {}", signs).as_bytes(), 13, 0, r);
    refuses(&[b'+'; 63], 9, 1, r);
    refuses(&[0xFF; 63], 13, 0, r);
    no_width(r);
}

/// 1 stands before all others, and has no place.
fn no_width(record: &mut Record) {
    let mut texts = vec![vec![b'x'; 64], vec![b'+'; 64], vec![b'0'; 64]];
    texts.push(spread(" ", 63, ""));
    texts.push(spread("", 63, " "));
    texts.push(spread("+", 62, "+"));
    texts.push("+-".repeat(32).into_bytes());
    texts.push(spread("+?", 62, ""));
    texts.push(spread("0x", 256, ""));
    texts.extend(["", "x", " ", "+", "0"].map(|text| text.into()));
    for text in texts {
        for unit in [0, -127, 127, -128, 128] {
            expect(&text, unit, no(1, 0), record);
        }
    }
}

/// The text reads as this word in every unit, and its length is the width.
fn reads(text: &[u8], number: i128, round: i128, record: &mut Record) {
    for unit in [0, -127, 127] {
        let word = RoundBit {
            number,
            round,
            width: text.len() as i128,
            unit: unit as i128,
        };
        let expected = TextAnswer {
            word,
            refusal: 0,
            place: 0,
        };
        expect(text, unit, expected, record);
    }
    outside_the_units(text, record);
}

#[rustfmt::skip]
pub fn done(_: &mut Random, r: &mut Record) {
    reads(b"+-", 1, 0, r);
    reads(b"+0", 1, 1, r);
    reads(b"0+", 0, 1, r);
    reads(b"00", 0, 0, r);
    reads(b"0-", -1, 0, r);
    reads(b"-0", -2, 0, r);
    reads(b"-+", -2, 1, r);
    reads(b"-+-0+0-0+-0", -718, 0, r);
    // 2^62 = 4_611_686_018_427_387_904, and 2^62 - 1 has ones in all places but the highest.
    reads(&spread("+", 62, ""), 4_611_686_018_427_387_903, 1, r);
    reads(&spread("+", 61, "-"), 4_611_686_018_427_387_903, 0, r);
    reads(&spread("-", 62, ""), -4_611_686_018_427_387_904, 0, r);
    reads(&spread("-", 61, "+"), -4_611_686_018_427_387_904, 1, r);
    reads(&spread("", 62, "+"), 0, 1, r);
    reads(&spread("", 62, "-"), -1, 0, r);
    reads(&spread("", 63, ""), 0, 0, r);
    // 2^62 - 2^61 + 2^60 - .. + 1 = (2^63 + 1) / 3 = 3_074_457_345_618_258_603.
    let signs = "+-".repeat(31);
    reads(format!("{}+", signs).as_bytes(), 3_074_457_345_618_258_602, 1, r);
    reads(format!("{}0", signs).as_bytes(), 3_074_457_345_618_258_602, 0, r);
}
