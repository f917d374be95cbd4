//! The parts that compare the places of document 02, Ask 3. A place is seldom
//! the one that is wanted by chance, so faults are put there on purpose.

use super::edge_texts::alternating;
use super::exhaustive::lists_over;
use super::job::Job;
use super::limits::*;
use super::place_laws::{hold, refusal_of_format};
use super::place_sheet as sheet;
use super::place_texts::{text_of, twice, Fault, Make, MAKES, STRANGE};
use super::random::Random;
use super::tally::Record;
use super::texts::described;

/// For each way to make a text.
const RANDOM_CASES: u64 = 40_000;

/// The three, a blank, and the byte that is farthest from them.
const FIVE_LETTERS: &[u8] = b"+0- \xFF";
const LONGEST_OF_FIVE_LETTERS: u32 = 5;

type Run = fn(&mut Random, &mut Record);

const PARTS: &[(&str, Run)] = &[
    ("places, worked by hand", sheet::done),
    ("places, worked by hand, refused", sheet::refused),
    ("places, all short texts over five letters", short_texts),
    ("places, a strange byte everywhere", strange_everywhere),
    ("places, a sign twice everywhere", twice_everywhere),
];

pub fn jobs(seed: u64) -> Vec<Job> {
    let mut jobs = Vec::new();
    for (index, &(name, run)) in PARTS.iter().enumerate() {
        let stream = 700 + index as u64;
        jobs.push(Job::new(name, move |record| {
            run(&mut Random::new(seed, stream), record)
        }));
    }
    for (index, way) in MAKES.iter().enumerate() {
        let stream = 750 + index as u64;
        let name = format!("places, random, {}", way.name);
        jobs.push(Job::new(name, move |record| {
            random_texts(&mut Random::new(seed, stream), way, record)
        }));
    }
    jobs
}

/// Reads a text and holds the library's answer to the laws, and to the fault that
/// the text was made with; a length or a unit outside is named before it.
fn expect(text: &[u8], unit: i32, fault: Fault, record: &mut Record) {
    let (refusal, place) = match refusal_of_format(text.len(), unit) {
        0 => fault,
        cause => (cause, 0),
    };
    let answer = hold(text, unit, record);
    let as_made = (answer.refusal, answer.place) == (refusal, place as i128);
    record.check(as_made, || {
        let given = described(text, unit);
        format!(
            "a text made with its fault\n  case:    {}\n  library: {:?}\n  as made: {} at {}",
            given, answer, refusal, place
        )
    });
}

/// Here no fault is put: there is every one, and every two.
fn short_texts(_: &mut Random, record: &mut Record) {
    for length in 0..=LONGEST_OF_FIVE_LETTERS {
        for text in lists_over(FIVE_LETTERS, length) {
            for unit in [0, LEAST_UNIT, MOST_UNIT, LEAST_UNIT - 1, MOST_UNIT + 1] {
                hold(&text, unit, record);
            }
        }
    }
}

/// At each place of each length: alone, among signs that alternate, among signs
/// that all repeat, and with every byte after it strange as well.
fn strange_everywhere(random: &mut Random, record: &mut Record) {
    for length in 1..=MOST_WIDTH as usize + 1 {
        let among = [
            vec![b'0'; length],
            alternating(length, b'+'),
            vec![b'+'; length],
            vec![b'-'; length],
        ];
        for place in 0..length {
            for mut text in among.clone() {
                text[place] = random.one_of(STRANGE);
                expect(&text, 0, (13, place), record);
                text[place..].fill(random.one_of(STRANGE));
                expect(&text, 0, (13, place), record);
            }
        }
    }
}

/// At each two places of each length: alone, and with signs that alternate
/// before them and after them.
fn twice_everywhere(random: &mut Random, record: &mut Record) {
    for length in LEAST_WIDTH as usize..=MOST_WIDTH as usize + 1 {
        for second in 1..length {
            for first in 0..second {
                for mut text in [vec![b'0'; length], alternating(length, b'-')] {
                    twice(random, &mut text, first, second);
                    expect(&text, 0, (9, second), record);
                }
            }
        }
    }
}

fn random_texts(random: &mut Random, way: &Make, record: &mut Record) {
    for _ in 0..RANDOM_CASES {
        let length = length(random).max(way.least_length);
        let (text, fault) = text_of(random, way, length);
        expect(&text, unit(random), fault, record);
    }
}

/// Mostly a width; the last ones of the first row look like one to a program that
/// drops digits.
fn length(random: &mut Random) -> usize {
    let (least, most) = (LEAST_WIDTH as usize, MOST_WIDTH as usize);
    match random.below(16) {
        0 => random.one_of(&[0, 1, most + 1, most + 2, 256 + least, 256 + most]),
        1 => random.below(130) as usize,
        2 | 3 => random.one_of(&[least, least + 1, most - 1, most]),
        _ => least + random.below(WIDTHS) as usize,
    }
}

/// Mostly inside; often at an end, and just past it.
fn unit(random: &mut Random) -> i32 {
    match random.below(16) {
        0 => random.one_of(&[LEAST_UNIT - 1, MOST_UNIT + 1]),
        1 => random.one_of(&[LEAST_UNIT, MOST_UNIT]),
        _ => LEAST_UNIT + random.below(UNITS) as i32,
    }
}
