//! The parts that compare the runs of document 02, Ask 8: cuts and sign changes mixed.

use super::case::Operand;
use super::exhaustive::lists_over;
use super::job::Job;
use super::limits::*;
use super::move_case::{described, Moved, KINDS_MOVED};
use super::move_ends::refusal_of_word;
use super::move_laws::{hold, hold_alike};
use super::move_lists::{another, cut};
use super::move_ways::{Way, WAYS};
use super::random::Random;
use super::tally::Record;
use super::{
    move_even as even, move_sheet as sheet, move_sheet_half_off as sheet_half_off,
    move_sheet_refused as sheet_refused,
};
use crate::model::moves::Move;

/// For each way to make them, each width and each kind; two more go with each.
const LISTS: u64 = 20;

/// All words up to this width have all lists of up to so many moves.
const WIDEST: u32 = 5;
const LONGEST: u32 = 4;

/// No end of the units is near, or one so near that the moves reach it, or pass it.
const UNITS_NEAR: [i32; 6] = [LEAST_UNIT, -1, 0, MOST_UNIT - 4, MOST_UNIT - 2, MOST_UNIT];

type Run = fn(&mut Random, &mut Record);

const PARTS: &[(&str, Run)] = &[
    ("moves, worked by hand", sheet::done),
    (
        "moves, worked by hand, half its unit off",
        sheet_half_off::done,
    ),
    ("moves, worked by hand, refused", sheet_refused::refused),
    ("moves, even cuts worked by hand", even::by_hand),
    ("moves, all short lists of small widths", short_lists),
    ("moves, even cuts of small widths", even::small_widths),
    ("moves, even cuts of every width", even::every_width),
];

pub fn jobs(seed: u64) -> Vec<Job> {
    let mut jobs = Vec::new();
    for (index, &(name, run)) in PARTS.iter().enumerate() {
        let stream = 1000 + index as u64;
        jobs.push(Job::new(name, move |record| {
            run(&mut Random::new(seed, stream), record)
        }));
    }
    for (index, way) in WAYS.iter().enumerate() {
        let stream = 1050 + index as u64;
        let name = format!("moves, random, {}", way.name);
        jobs.push(Job::new(name, move |record| {
            random_lists(&mut Random::new(seed, stream), way, record)
        }));
    }
    jobs
}

fn short_lists(random: &mut Random, record: &mut Record) {
    let choices = [Move::SignChange, cut(0), cut(1), cut(2)];
    let lists = |length| lists_over(&choices, length);
    let lists: Vec<Vec<Move>> = (0..=LONGEST).flat_map(lists).collect();
    for kind in KINDS_MOVED {
        for width in LEAST_WIDTH..=WIDEST {
            for word in all_words(kind, width) {
                for moves in &lists {
                    let unit = random.one_of(&UNITS_NEAR);
                    hold(kind, Operand { unit, ..word }, moves, record);
                }
            }
        }
    }
}

fn all_words(kind: &Moved, width: u32) -> Vec<Operand> {
    let half = 1i64 << (width - 1);
    let mut words = Vec::new();
    for number in -half..half {
        for round in 0..=kind.has_round_bit as u8 {
            words.push(Operand {
                number,
                round,
                width,
                unit: 0,
            });
        }
    }
    words
}

fn random_lists(random: &mut Random, way: &Way, record: &mut Record) {
    for kind in KINDS_MOVED {
        for width in way.least_width..=MOST_WIDTH {
            for _ in 0..LISTS {
                random_list(random, way, kind, width, record);
            }
        }
    }
}

/// The list itself, then its moves in another order, then others that must end alike.
fn random_list(random: &mut Random, way: &Way, kind: &Moved, width: u32, record: &mut Record) {
    let (first, moves) = (way.make)(random, kind, width);
    let end = hold(kind, first, &moves, record);
    // Lists that end otherwise would pass, and show nothing of what they are for.
    record.check((way.as_made)(&end), || {
        let given = described(first, &moves);
        format!(
            "a list as it is made: {}\n  case:    {}\n  library: {:?}",
            way.name, given, end
        )
    });
    let mut shuffled = moves.clone();
    random.shuffle(&mut shuffled);
    for other in [shuffled, another(random, &moves)] {
        let other_end = hold(kind, first, &other, record);
        if refusal_of_word(kind, first) == 0 {
            hold_alike(first, (&moves, end), (&other, other_end), record);
        }
    }
}
