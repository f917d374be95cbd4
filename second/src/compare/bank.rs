//! The parts that compare the filter bank.

use super::bad_banks::{any_word, SPOILS};
use super::bank_case::{compare, PLACES};
use super::bank_words::{any_good, renew};
use super::job::Job;
use super::random::Random;
use super::tally::Record;
use super::{bank_refusals as refusals, bank_sheet as sheet, bank_values as values};
use crate::model::bank::{CHANNELS, TAPS};

const RANDOM_CASES: u64 = 100_000;

type Run = fn(&mut Random, &mut Record);

const PARTS: &[(&str, Run)] = &[
    ("bank, worked by hand", sheet::done),
    ("bank, worked by hand, refused", sheet::refused),
    ("bank, words alike in a row", values::alike_in_a_row),
    ("bank, ends of the widths mixed", values::extremes_mixed),
    ("bank, every tap and every sample", values::every_word),
    (
        "bank, totals at an edge of the cut",
        values::edges_of_the_cut,
    ),
    ("bank, every two units", values::every_unit),
    ("bank, one word wrong", refusals::one_wrong),
    ("bank, two words wrong", refusals::two_wrong),
    ("bank, other widths", refusals::other_widths),
    ("bank, unlike units", refusals::unlike_units),
    ("bank, channels", refusals::channels),
    ("bank, the other channels", refusals::other_channels),
    ("bank, several causes at once", refusals::several_causes),
    ("bank, random", random_cases),
];

pub fn jobs(seed: u64) -> Vec<Job> {
    let mut jobs = Vec::new();
    for (index, &(name, run)) in PARTS.iter().enumerate() {
        let stream = 500 + index as u64;
        jobs.push(Job::new(name, move |record| {
            run(&mut Random::new(seed, stream), record)
        }));
    }
    jobs
}

/// Half of them have nothing wrong, a quarter a tap of any channel that may be
/// anything, a quarter one or two words spoilt.
fn random_cases(random: &mut Random, record: &mut Record) {
    let mut case = any_good(random);
    for _ in 0..RANDOM_CASES {
        renew(random, &mut case);
        match random.below(4) {
            0 => {
                let channel = random.below(CHANNELS as u64) as usize;
                case.bank[channel][random.below(TAPS as u64) as usize] = any_word(random);
            }
            1 => {
                for _ in 0..1 + random.below(2) {
                    let place = random.below(PLACES as u64) as usize;
                    random.one_of(&SPOILS)(random, case.word(place));
                }
            }
            _ => {}
        }
        compare(&case, record);
    }
}
