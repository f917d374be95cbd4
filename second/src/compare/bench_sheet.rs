//! The bench sheet of document 01, line by line. Here both programs are held
//! against the document's own answers, not only against each other; so its
//! numbers stand here as they stand there, and not under the model's names.
//! What the texts answer beside these, the place, is document 02's, Ask 3.

use super::blocks;
use super::call::compare;
use super::case::{Case, Operand, Reply};
use super::file_read_case::expect_read;
use super::job::Job;
use super::operations::{row_of, HAND_OUT, OPEN, PUT};
use super::random::Random;
use super::tally::Record;
use super::texts;
use crate::model::digit_text::TextAnswer;
use crate::model::kinds::ROUND_BIT;
use crate::model::layout::VERSION_1;
use crate::model::running_sum::RunningSum;
use crate::model::words::{Fields, RoundBit, Word};

pub fn jobs() -> Vec<Job> {
    vec![
        Job::new("bench sheet, words", words),
        Job::new("bench sheet, P14", running_sum),
        Job::new("bench sheet, digit texts", digit_texts),
        Job::new("bench sheet, files", block_files),
    ]
}

fn word(width: u32, number: i64, round: u8) -> Operand {
    Operand {
        number,
        round,
        width,
        unit: 0,
    }
}

/// A word of width 5 and unit 0, as the sheet has it unless said.
fn five(number: i64, round: u8) -> Operand {
    word(5, number, round)
}

fn fields(number: i128, round: i128, width: i128, unit: i128) -> Fields {
    Fields {
        number,
        round,
        width,
        unit,
    }
}

const BLANK: Fields = Fields {
    number: 0,
    round: 0,
    width: 2,
    unit: 0,
};

fn expect(line: &str, reply: Reply, refusal: u32, word: Fields, record: &mut Record) {
    record.check(reply.refusal == refusal && reply.word == word, || {
        format!(
            "bench sheet, {}\n  library: {:?}\n  sheet:   refusal {}, {:?}",
            line, reply, refusal, word
        )
    });
}

/// A line with one operand and a depth (0 where the operation takes none).
fn one(line: &str, name: &str, first: Operand, depth: u64, expected: Fields, record: &mut Record) {
    let reply = compare(row_of(name), &Case::deep(first, depth), record);
    expect(line, reply, 0, expected, record);
}

fn two(line: &str, name: &str, a: Operand, b: Operand, expected: Fields, record: &mut Record) {
    let reply = compare(row_of(name), &Case::pair(a, b), record);
    expect(line, reply, 0, expected, record);
}

fn refused(line: &str, name: &str, case: Case, refusal: u32, record: &mut Record) {
    let reply = compare(row_of(name), &case, record);
    expect(line, reply, refusal, BLANK, record);
}

fn words(r: &mut Record) {
    sums(r);
    cuts(r);
    products(r);
    half_units(r);
}

#[rustfmt::skip] // one line of the sheet, one line here
fn sums(r: &mut Record) {
    two("P1", "frost_round_bit_sum", five(3, 1), five(4, 1), fields(8, 1, 5, 0), r);
    two("P2", "frost_round_bit_sum", five(15, 0), five(0, 1), fields(15, 1, 5, 0), r);
    refused("P3", "frost_round_bit_sum", Case::pair(five(15, 0), five(1, 0)), 8, r);
    refused("P4", "frost_round_bit_sum", Case::pair(five(-16, 0), five(-1, 1)), 8, r);
    two("P5", "frost_round_bit_difference", five(5, 0), five(5, 0), fields(-1, 1, 5, 0), r);
    refused("to plain", "frost_round_bit_to_plain", Case::of(five(15, 1)), 8, r);
    two("mistakes, 2", "frost_round_bit_sum", five(0, 0), five(0, 1), fields(0, 1, 5, 0), r);
    one("mistakes, 2", "frost_round_bit_sign_change", five(0, 1), 0, fields(-1, 0, 5, 0), r);
    two("mistakes, 2", "frost_round_bit_sum", five(-1, 1), five(-1, 0), fields(-2, 1, 5, 0), r);
}

#[rustfmt::skip]
fn cuts(r: &mut Record) {
    one("P6", "frost_round_bit_cut", word(11, -718, 0), 2, fields(-180, 1, 9, 2), r);
    one("P6", "frost_round_bit_rest", word(11, -718, 0), 2, fields(-2, 0, 11, 0), r);
    one("P7", "frost_round_bit_cut", word(3, 3, 0), 1, fields(1, 1, 2, 1), r);
    refused("P7", "frost_round_bit_cut", Case::deep(word(3, 3, 0), 2), 5, r);
    one("P8", "frost_round_bit_widen", word(4, 5, 1), 2, fields(23, 1, 6, -2), r);
    one("P13", "frost_round_bit_even_cut", five(6, 0), 2, fields(1, 1, 3, 2), r);
    one("P13", "frost_round_bit_even_cut", five(2, 0), 2, fields(0, 0, 3, 2), r);
}

#[rustfmt::skip]
fn products(r: &mut Record) {
    let name = "frost_round_bit_product";
    two("P9", name, five(11, 1), five(9, 1), fields(119, 1, 9, 0), r);
    two("P9", name, five(-12, 0), five(9, 1), fields(-120, 0, 9, 0), r);
    two("P9", name, five(-1, 1), five(9, 1), fields(-1, 1, 9, 0), r);
    let wide = word(32, 1, 0);
    two("widths 32 and 32", name, wide, wide, fields(1, 0, 63, 0), r);
}

#[rustfmt::skip]
fn half_units(r: &mut Record) {
    let half = |number| five(number, 0);
    let up = "frost_half_unit_from_plain_up";
    let even = "frost_half_unit_from_plain_even";
    one("P10", up, half(6), 1, fields(3, 0, 4, 1), r);
    one("P10", even, half(6), 1, fields(2, 0, 4, 1), r);
    one("P10", up, half(7), 1, fields(3, 0, 4, 1), r);
    one("P10", even, half(7), 1, fields(3, 0, 4, 1), r);
    two("P11", "frost_half_unit_sum_up", half(5), half(3), fields(9, 0, 5, 0), r);
    two("P11", "frost_half_unit_sum_even", half(5), half(3), fields(8, 0, 5, 0), r);
    let product = "frost_half_unit_product";
    two("P12", product, half(5), half(2), fields(27, 0, 10, -1), r);
    let (wide, less) = (word(32, 0, 0), word(31, 0, 0));
    refused("widths 32 and 32", product, Case::pair(wide, wide), 6, r);
    two("widths 32 and 31", product, wide, less, fields(0, 0, 63, -1), r);
}

/// P14: the words put, those handed out, and those kept after it.
fn running_sum(record: &mut Record) {
    let sum = |number, round| RunningSum::made(RoundBit::made(fields(number, round, 8, 0)), 2);
    let first = ((3, 0), (0, 1), (-1, 0));
    let second = ((3, 0), (0, 1), (-2, 0));
    let third = ((0, 1), (-1, 1), (-2, 1));
    let mut kept = sum(0, 0);
    let open = compare(OPEN, &Case::on(kept, Operand::BLANK), record);
    expect("P14, opened", open, 0, BLANK, record);
    for (put, out, left) in [first, second, third] {
        let reply = compare(PUT, &Case::on(kept, word(8, put.0, put.1)), record);
        expect("P14, put", reply, 0, BLANK, record);
        let filled = reply.sum.expect("a running sum in the answer");
        let reply = compare(HAND_OUT, &Case::on(filled, Operand::BLANK), record);
        expect(
            "P14, handed out",
            reply,
            0,
            fields(out.0, out.1, 6, 2),
            record,
        );
        kept = sum(left.0, left.1);
        record.check(reply.sum == Some(kept), || {
            format!(
                "bench sheet, P14\n  library: {:?}\n  sheet:   {:?}",
                reply, kept
            )
        });
    }
}

fn digit_texts(record: &mut Record) {
    let text = texts::compare_write(word(11, -718, 0), 11, record);
    record.check(text == b"-+-0+0-0+-0", || {
        format!(
            "bench sheet, P6, digit text\n  library: {:?}",
            String::from_utf8_lossy(&text)
        )
    });
    reads(b"+0+", 9, BLANK, 2, record);
    reads(b"+-", 0, fields(1, 0, 2, 0), 0, record);
    reads(b"0+", 0, fields(0, 1, 2, 0), 0, record);
    reads(b"0000", 0, fields(0, 0, 4, 0), 0, record);
}

fn reads(text: &[u8], refusal: u32, word: Fields, place: i128, record: &mut Record) {
    let by_hand = TextAnswer {
        word: RoundBit::made(word),
        refusal,
        place,
    };
    texts::expect_read("bench sheet, a text read", text, 0, by_hand, record);
}

/// In version 1, which has no width 33; document 02, Ask 7 leaves these as they
/// are.
fn block_files(record: &mut Record) {
    let mut random = Random::new(1, 1);
    let mut good = |width: u8, unit: i8, count: usize| {
        let good_width = width.min(VERSION_1.most_width as u8);
        let mut block = blocks::good(&mut random, ROUND_BIT, good_width, unit, count);
        block.width = width;
        block.bytes()
    };
    let lines = [
        ("count 8,000", good(9, 0, 8_000), 0),
        ("count 8,001", good(9, 0, 8_001), 12),
        ("width 32", good(32, 0, 3), 0),
        ("width 33", good(33, 0, 3), 1),
        ("unit byte 80", good(9, -128, 3), 2),
    ];
    for (line, file, refusal) in lines {
        let what = format!("bench sheet, {}", line);
        expect_read(&what, &file, refusal, record);
    }
}
