//! The parts that compare the imports of document 02, Ask 6.

use super::job::Job;
use super::random::Random;
use super::tally::Record;
use super::{
    binary64_back as back, binary64_c as c, binary64_causes as causes, binary64_edges as edges,
    binary64_fields as fields, binary64_laws as laws, binary64_random as random_samples,
    binary64_sheet as sheet, binary64_sheet_formats as sheet_formats,
    binary64_sheet_refused as sheet_refused, binary64_small as small,
};

type Run = fn(&mut Random, &mut Record);

const PARTS: &[(&str, Run)] = &[
    ("binary64, worked by hand", sheet::done),
    (
        "binary64, worked by hand, other formats",
        sheet_formats::done,
    ),
    ("binary64, worked by hand, refused", sheet_refused::by_hand),
    (
        "binary64, every quarter of small widths",
        small::every_quarter,
    ),
    ("binary64, ends of every width", edges::of_widths),
    ("binary64, every exponent", fields::every_exponent),
    ("binary64, every place of a unit", fields::every_place),
    ("binary64, several causes at once", causes::several_causes),
    ("binary64, words that come back", back::come_back),
    ("binary64, words that come back cut", back::come_back_cut),
    ("binary64, laws", laws::of_samples),
    ("binary64, the C library", c::by_the_c_library),
    ("binary64, random bits", random_samples::any_bits),
    ("binary64, random, in reach", random_samples::in_reach),
    ("binary64, random ties", random_samples::near_ties),
    ("binary64, random subnormals", random_samples::subnormals),
];

pub fn jobs(seed: u64) -> Vec<Job> {
    let mut jobs = Vec::new();
    for (index, &(name, run)) in PARTS.iter().enumerate() {
        let stream = 900 + index as u64;
        jobs.push(Job::new(name, move |record| {
            run(&mut Random::new(seed, stream), record)
        }));
    }
    jobs
}
