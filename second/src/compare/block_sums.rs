//! The parts that compare the block sums of document 02, Ask 9.

use super::job::Job;
use super::random::Random;
use super::tally::Record;
use super::{
    block_sum_causes as causes, block_sum_commutes as commutes, block_sum_exhaustive as exhaustive,
    block_sum_lent as lent, block_sum_long as long, block_sum_random as random_blocks,
    block_sum_refusals as refusals, block_sum_running as running, block_sum_sheet as sheet,
    block_sum_sheet_long as sheet_long, block_sum_sheet_refused as sheet_refused,
    block_sum_trees as trees,
};

type Run = fn(&mut Random, &mut Record);

#[rustfmt::skip] // one part, one line
const PARTS: &[(&str, Run)] = &[
    ("block sums, worked by hand", sheet::by_hand),
    ("block sums, worked by hand, long", sheet_long::by_hand),
    ("block sums, worked by hand, refused", sheet_refused::by_hand),
    ("block sums, all small blocks", exhaustive::right),
    ("block sums, all blocks of three sorts of records", exhaustive::few_right_sorts),
    ("block sums, all small blocks with wrong records", exhaustive::with_wrong),
    ("block sums, all blocks of few sorts, some wrong", exhaustive::few_sorts),
    ("block sums, widths and units", refusals::widths_and_units),
    ("block sums, unlike lengths", refusals::unlike_lengths),
    ("block sums, one bad record", refusals::one_bad_record),
    ("block sums, two bad records", refusals::two_bad_records),
    ("block sums, ends of every width", refusals::ends),
    ("block sums, digits above a good number", refusals::digits_above),
    ("block sums, several causes at once", causes::several_causes),
    ("block sums, sum is commutative", commutes::in_both_orders),
    ("block sums, the neutral word", commutes::neutral_word),
    ("block sums, every grouping and order of few words", trees::all_orders),
    ("block sums, random groupings and orders", trees::random_orders),
    ("block sums, in halves or from left to right only", trees::one_way_only),
    ("block sums, by a running sum", running::by_puts),
    ("block sums, what is lent", lent::as_it_was),
    ("block sums, every width and unit", random_blocks::every_width_and_unit),
    ("block sums, random, numbers of every size", random_blocks::of_every_size),
    ("block sums, random, bad records", random_blocks::with_bad_records),
    ("block sums, more records than a file has", long::thousands),
    ("block sums, a million records", long::millions),
];

pub fn jobs(seed: u64) -> Vec<Job> {
    let mut jobs = Vec::new();
    for (index, &(name, run)) in PARTS.iter().enumerate() {
        let stream = 1100 + index as u64;
        jobs.push(Job::new(name, move |record| {
            run(&mut Random::new(seed, stream), record)
        }));
    }
    for (index, way) in random_blocks::WAYS.iter().enumerate() {
        let stream = 1150 + index as u64;
        let name = format!("block sums, random, {}", way.name);
        jobs.push(Job::new(name, move |record| {
            random_blocks::of_way(&mut Random::new(seed, stream), way, record)
        }));
    }
    jobs
}
