//! Running sums over long random lists of calls. Each call is compared, and
//! both totals of demand 3 are worked out from the calls and the answers.

use super::call::compare;
use super::case::{Case, Operand, Reply};
use super::job::Job;
use super::limits::*;
use super::operations::{EMPTY, HAND_OUT, OPEN, PUT};
use super::random::Random;
use super::random_cases;
use super::tally::Record;
use crate::model::causes::DONE;
use crate::model::running_sum::RunningSum;
use crate::model::words::{Fields, Word};

const JOBS: u64 = 4;
const LISTS: u64 = 500;
const CALLS: u64 = 1500;

pub fn jobs(seed: u64) -> Vec<Job> {
    let mut jobs = Vec::new();
    for part in 0..JOBS {
        let name = format!("running sums, lists of calls, part {}", part + 1);
        jobs.push(Job::new(name, move |record| {
            let mut random = Random::new(seed, 200 + part);
            for _ in 0..LISTS {
                call_list(&mut random, record);
            }
        }));
    }
    jobs
}

/// A sum as the library left it, and the two totals so far in its units.
struct List {
    sum: RunningSum,
    accepted: i128,
    handed_out: i128,
    calls: u64,
}

fn call_list(random: &mut Random, record: &mut Record) {
    let mut list = match open(random, record) {
        Some(list) => list,
        None => return,
    };
    // Some lists mostly put, so that sums fill up and refuse; some mostly empty.
    let puts = random.one_of(&[4, 8, 30]);
    for _ in 0..CALLS {
        match random.below(puts + 3) {
            0 | 1 => hand_out(&mut list, record),
            2 => empty(&mut list, record),
            _ => put(random, &mut list, record),
        }
        if random.once_in(40) {
            spoiled(random, &list, record);
        }
    }
}

fn open(random: &mut Random, record: &mut Record) -> Option<List> {
    // A sum of the least width has no depth.
    let width = LEAST_WIDTH + 1 + random.below(WIDTHS - 1) as u32;
    let depth = 1 + random.below((width - LEAST_WIDTH) as u64);
    let highest = MOST_UNIT - depth as i32;
    let unit = LEAST_UNIT + random.below((highest - LEAST_UNIT + 1) as u64) as i32;
    let format = Operand {
        number: 0,
        round: 0,
        width,
        unit,
    };
    let reply = compare(OPEN, &Case::deep(format, depth), record);
    record.check(reply.refusal == DONE, || {
        let case = format!("{:?}, depth {}", format, depth);
        format!(
            "a sum that must open\n  case:    {}\n  library: {:?}",
            case, reply
        )
    });
    if reply.refusal != DONE {
        return None;
    }
    Some(List {
        sum: sum_of(&reply),
        accepted: 0,
        handed_out: 0,
        calls: 0,
    })
}

/// The sum that a call left, as the next call takes it.
fn sum_of(reply: &Reply) -> RunningSum {
    reply.sum.expect("a running sum in the answer")
}

/// One call, on the sum that the call before left.
fn call(row: usize, list: &mut List, word: Operand, record: &mut Record) -> Reply {
    let reply = compare(row, &Case::on(list.sum, word), record);
    list.sum = sum_of(&reply);
    list.calls += 1;
    reply
}

fn put(random: &mut Random, list: &mut List, record: &mut Record) {
    let word = word_to_put(random, kept(list));
    let reply = call(PUT, list, word, record);
    if reply.refusal == DONE {
        list.accepted += value(word.fields());
    }
    totals(list, "put", record);
}

/// Words of every size, so that some fit and some do not; one in ten is any
/// word at all, which the sum mostly refuses.
fn word_to_put(random: &mut Random, kept: Operand) -> Operand {
    if random.once_in(10) {
        return random_cases::word(random);
    }
    let digits = 1 + random.below(kept.width as u64);
    let number = random.next() as i64 >> (64 - digits);
    Operand {
        number,
        round: random.below(2) as u8,
        ..kept
    }
}

fn hand_out(list: &mut List, record: &mut Record) {
    let reply = call(HAND_OUT, list, Operand::BLANK, record);
    count_word(list, &reply);
    totals(list, "hand out", record);
    // Half a coarse unit is 2^(d-1) of the sum's units.
    let kept = value(list.sum.kept.fields());
    record.check(
        reply.refusal != DONE || 2 * kept.abs() <= 1 << list.sum.depth,
        || {
            format!(
                "more than half a coarse unit kept\n  case:    {}",
                list_text(list)
            )
        },
    );
}

fn empty(list: &mut List, record: &mut Record) {
    let reply = call(EMPTY, list, Operand::BLANK, record);
    count_word(list, &reply);
    totals(list, "empty", record);
    record.check(
        reply.refusal != DONE || list.accepted == list.handed_out,
        || {
            format!(
                "totals unequal after emptying\n  case:    {}",
                list_text(list)
            )
        },
    );
}

/// A word handed out counts in its own unit.
fn count_word(list: &mut List, reply: &Reply) {
    if reply.refusal == DONE {
        list.handed_out += in_units_of(list.sum.kept.unit, reply.word);
    }
}

fn in_units_of(unit: i128, word: Fields) -> i128 {
    // A word in a finer unit than the sum's would be a fault; it is compared
    // elsewhere, and here it must only not stop the count.
    let steps = (word.unit - unit).clamp(0, MOST_WIDTH as i128);
    value(word) << steps
}

fn value(word: Fields) -> i128 {
    word.number + word.round
}

fn kept(list: &List) -> Operand {
    Operand::of(list.sum.kept.fields())
}

/// Words accepted are words handed out plus what is kept, after every call.
fn totals(list: &List, call: &str, record: &mut Record) {
    let kept = value(list.sum.kept.fields());
    record.check(list.accepted == list.handed_out + kept, || {
        format!(
            "the totals after a call to {}\n  case:    {}",
            call,
            list_text(list)
        )
    });
}

fn list_text(list: &List) -> String {
    format!(
        "after {} calls {:?}, accepted {}, handed out {}",
        list.calls, list.sum, list.accepted, list.handed_out
    )
}

/// Calls on a sum that no call left: they stand outside the list, and are
/// compared like any other.
fn spoiled(random: &mut Random, list: &List, record: &mut Record) {
    let mut case = Case::on(list.sum, kept(list));
    let most = MOST_WIDTH as u64;
    match random.below(5) {
        0 => case.depth = random.one_of(&[0, most - 1, most, most + 1, u64::MAX]),
        1 => case.first.round = random.one_of(&[2, 255]),
        2 => case.first.width = random.one_of(&[0, 1, LEAST_WIDTH, MOST_WIDTH + 1]),
        3 => case.first.unit = random.one_of(&[LEAST_UNIT - 1, MOST_UNIT, MOST_UNIT + 1]),
        _ => case.first.number = random.next() as i64,
    }
    compare(random.one_of(&[PUT, HAND_OUT, EMPTY]), &case, record);
}
