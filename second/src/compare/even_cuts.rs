//! The parts that compare the even cut by the rule of document 02, Ask 2. Random
//! words hardly ever make a tie at a deep cut, so ties are made on purpose.

use super::call::compare;
use super::case::{Case, Operand, Reply};
use super::edges::{edge_depths, edge_words};
use super::even_laws::{hold, is_tie};
use super::even_sheet as sheet;
use super::job::Job;
use super::limits::*;
use super::operations::{CUT, EVEN_CUT, OPERATIONS};
use super::random::Random;
use super::random_cases::any_narrower;
use super::tally::Record;
use crate::model::words::Fields;

/// All words up to this width are held to the laws.
const WIDEST: u32 = 10;
const RANDOM_CASES: u64 = 100_000;

type Run = fn(&mut Random, &mut Record);

const PARTS: &[(&str, Run)] = &[
    ("even cut, worked by hand", sheet::done),
    ("even cut, worked by hand, refused", sheet::refused),
    ("even cut, ties and beside them", ties),
    ("even cut, whole counts and beside them", whole_counts),
    ("even cut, all words of small widths", small_widths),
    ("even cut, random words", random_words),
    ("even cut, refused as the cut", refused_as_the_cut),
];

pub fn jobs(seed: u64) -> Vec<Job> {
    let mut jobs = Vec::new();
    for (index, &(name, run)) in PARTS.iter().enumerate() {
        let stream = 600 + index as u64;
        jobs.push(Job::new(name, move |record| {
            run(&mut Random::new(seed, stream), record)
        }));
    }
    jobs
}

/// The depths that leave enough digits.
fn depths(width: u32) -> std::ops::RangeInclusive<u64> {
    0..=(width - LEAST_WIDTH) as u64
}

/// A good word, in any unit that the cut by this depth leaves in range.
fn word(random: &mut Random, width: u32, depth: u64, number: i64, round: u8) -> Operand {
    Operand {
        number,
        round,
        width,
        unit: LEAST_UNIT + random.below(UNITS - depth) as i32,
    }
}

/// Half a new unit above whole counts; depth 0 has no such values.
fn ties(random: &mut Random, record: &mut Record) {
    for width in LEAST_WIDTH + 1..=MOST_WIDTH {
        for depth in depths(width).skip(1) {
            for (word, beside) in around(random, width, depth, 1 << (depth - 1)) {
                // Words that are no ties would pass, and show nothing.
                let as_made = is_tie(word, depth) == (beside == 0);
                record.check(as_made, || {
                    format!("a tie as it is made: {:?}, depth {}", word, depth)
                });
                hold(word, depth, record);
            }
        }
    }
}

/// Where all dropped digits are 0, or are 1 and the round bit carries through.
fn whole_counts(random: &mut Random, record: &mut Record) {
    for width in LEAST_WIDTH..=MOST_WIDTH {
        for depth in depths(width) {
            for (word, _) in around(random, width, depth, 0) {
                hold(word, depth, record);
            }
        }
    }
}

/// Words whose value lies so far above a floor, and those with the number one
/// below and one above; both round bits have each value.
fn around(random: &mut Random, width: u32, depth: u64, above: i64) -> Vec<(Operand, i64)> {
    let half = 1i64 << (width - 1);
    let mut words = Vec::new();
    for floor in floors(random, width - depth as u32) {
        for round in [0, 1] {
            for beside in [-1, 0, 1] {
                let number = (floor << depth) + above - round as i64 + beside;
                if -half <= number && number < half {
                    words.push((word(random, width, depth, number, round), beside));
                }
            }
        }
    }
    words
}

/// The ends of what is left of the width, those about 0, and some of any size;
/// of each the even and the odd one.
fn floors(random: &mut Random, width: u32) -> Vec<i64> {
    let half = 1i64 << (width - 1);
    let mut floors = vec![-half, -4, -2, 0, 2, half - 2];
    floors.extend((0..2).map(|_| any_narrower(random, width) as i64 & !1));
    floors.retain(|floor| -half <= *floor && *floor < half);
    floors.sort();
    floors.dedup();
    floors.iter().flat_map(|even| [*even, even + 1]).collect()
}

fn small_widths(random: &mut Random, record: &mut Record) {
    for width in LEAST_WIDTH..=WIDEST {
        let half = 1i64 << (width - 1);
        for depth in depths(width) {
            for number in -half..half {
                for round in [0, 1] {
                    hold(word(random, width, depth, number, round), depth, record);
                }
            }
        }
    }
}

fn random_words(random: &mut Random, record: &mut Record) {
    for _ in 0..RANDOM_CASES {
        let width = LEAST_WIDTH + random.below(WIDTHS) as u32;
        let depth = random.below((width - LEAST_WIDTH + 1) as u64);
        let number = random.next() as i64 >> (64 - width);
        let round = random.below(2) as u8;
        hold(word(random, width, depth, number, round), depth, record);
    }
}

/// It is as the cut but for the new round bit, and so are its refusals.
fn refused_as_the_cut(_: &mut Random, record: &mut Record) {
    for first in edge_words(OPERATIONS[EVEN_CUT].takes) {
        for depth in edge_depths(first.width) {
            let case = Case::deep(first, depth);
            let cut = compare(CUT, &case, record);
            let even = compare(EVEN_CUT, &case, record);
            let word = Fields {
                round: cut.word.round,
                ..even.word
            };
            record.check(Reply { word, ..even } == cut, || {
                let given = format!("{:?}, depth {}", first, depth);
                format!(
                    "an even cut unlike the cut\n  case:    {}\n  cut:     {:?}\n  even:    {:?}",
                    given, cut, even
                )
            });
        }
    }
}
