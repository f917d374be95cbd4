//! The parts of the comparison, and how they are run.

use super::fall;
use super::operations::rows;
use super::tally::Record;
use std::sync::atomic::Ordering;

/// One part of the comparison; each counts as one check.
pub struct Job {
    name: String,
    run: Box<dyn Fn(&mut Record)>,
}

impl Job {
    pub fn new(name: impl Into<String>, run: impl Fn(&mut Record) + 'static) -> Job {
        Job {
            name: name.into(),
            run: Box::new(run),
        }
    }
}

/// Answers for each job whether it passed, and what all of them counted. One
/// after the other: a second thread makes an emulator slower than one alone.
pub fn run_all(jobs: &[Job]) -> (Vec<bool>, Record) {
    let mut results = Vec::new();
    let mut total = Record::new(rows().len());
    for job in jobs {
        let record = run_one(job);
        results.push(is_good(&record));
        total.add(&record);
    }
    (results, total)
}

/// A part that compared nothing has shown nothing.
fn is_good(record: &Record) -> bool {
    record.cases > 0 && record.differences == 0
}

fn run_one(job: &Job) -> Record {
    let mut record = Record::new(rows().len());
    (job.run)(&mut record);
    let good = is_good(&record);
    let ended = if good { &fall::PASSED } else { &fall::FAILED };
    ended.fetch_add(1, Ordering::SeqCst);
    let mark = if good { "ok  " } else { "FAIL" };
    println!(
        "{} {}: {} cases, {} differences",
        mark, job.name, record.cases, record.differences
    );
    record
}
