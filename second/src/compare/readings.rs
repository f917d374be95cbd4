//! The parts that compare the readings of document 02, Ask 4.

use super::job::Job;
use super::random::Random;
use super::tally::Record;
use super::{
    reading_causes as causes, reading_far as far, reading_random as random_blocks,
    reading_refusals as refusals, reading_runs as runs, reading_sheet as sheet,
    reading_sheet_refused as sheet_refused, reading_small as small, reading_values as values,
};

type Run = fn(&mut Random, &mut Record);

const PARTS: &[(&str, Run)] = &[
    ("readings, worked by hand", sheet::done),
    ("readings, worked by hand, refused", sheet_refused::refused),
    (
        "readings, all blocks of up to 2 records",
        small::two_records,
    ),
    ("readings, all blocks of 3 records", small::three_records),
    (
        "readings, all blocks of 4 of few records",
        small::four_records,
    ),
    ("readings, ends of every width", values::ends),
    (
        "readings, every number of small widths",
        values::every_number,
    ),
    ("readings, beside every power of 2", values::beside_powers),
    (
        "readings, lowest and highest everywhere",
        values::everywhere,
    ),
    ("readings, kinds and widths", refusals::kinds_and_widths),
    ("readings, unlike lengths", refusals::unlike_lengths),
    ("readings, runs of every size", refusals::runs),
    ("readings, one bad record", refusals::bad_record),
    ("readings, digits above a good number", far::digits_above),
    ("readings, numbers of every size", far::every_size),
    ("readings, several causes at once", causes::several_causes),
    ("readings, two adjoining runs", runs::adjoining),
    ("readings, records outside the run", runs::outside),
    ("readings, the same values", runs::same_values),
    ("readings, sign changes", runs::sign_changed),
    ("readings, random", random_blocks::short_blocks),
    (
        "readings, random, thousands of records",
        random_blocks::thousands,
    ),
    (
        "readings, more records than a file has",
        random_blocks::long_blocks,
    ),
];

pub fn jobs(seed: u64) -> Vec<Job> {
    let mut jobs = Vec::new();
    for (index, &(name, run)) in PARTS.iter().enumerate() {
        let stream = 800 + index as u64;
        jobs.push(Job::new(name, move |record| {
            run(&mut Random::new(seed, stream), record)
        }));
    }
    jobs
}
