//! The parts that compare block files: reading, then writing, then both.

use super::file_law_cases as laws;
use super::file_numbers as numbers;
use super::file_sheet as sheet;
use super::file_versions as versions;
use super::files_read as read;
use super::files_written as written;
use super::job::Job;
use super::random::Random;
use super::tally::Record;
use crate::model::kinds::KINDS;

type Run = Box<dyn Fn(&mut Random, &mut Record)>;

/// Of every version and kind.
const PARTS: &[(&str, fn(&mut Random, &mut Record))] = &[
    ("files read, cut and lengthened", read::cut_and_lengthened),
    ("files read, at the limits", read::at_the_limits),
    ("files read, several causes at once", read::several_causes),
    ("files read, random", read::random),
    ("files read, every version", versions::every_version),
    ("files read, every width", versions::every_width),
    ("files read, every length", versions::every_length),
    ("files read, as long in two versions", versions::same_length),
    ("files read, every byte of a number", numbers::every_byte),
    ("files written, good", written::good),
    (
        "files written, several causes at once",
        written::several_causes,
    ),
    ("files written, at the limits", written::at_the_limits),
    ("files written, random", written::random),
    ("files written, every width", versions::written),
    ("files, worked by hand", sheet::good),
    ("files, worked by hand, refused", sheet::refused),
    ("files, ends of every width", numbers::ends),
    ("files, single digits", numbers::single_digits),
    (
        "files, digits above a good number",
        numbers::with_more_above,
    ),
    ("files, laws of random files", laws::random_files),
    ("files, laws of random blocks", laws::random_blocks),
    ("files, laws of bad files", laws::bad_files),
    ("files, laws of every width", laws::every_width),
    ("files, one file one block", laws::another_file),
    ("files, one block one file", laws::another_block),
    ("files, one block one version", laws::another_version),
];

fn parts() -> Vec<(String, Run)> {
    let mut parts: Vec<(String, Run)> = vec![("files read, good".into(), Box::new(read::good))];
    for &kind in KINDS {
        parts.push((
            format!("files read, {}, damaged in one byte", kind.called),
            Box::new(move |random, record| read::damaged(kind, random, record)),
        ));
    }
    for &(name, run) in PARTS {
        parts.push((name.into(), Box::new(run)));
    }
    parts
}

pub fn jobs(seed: u64) -> Vec<Job> {
    let mut jobs = Vec::new();
    for (index, (name, run)) in parts().into_iter().enumerate() {
        let stream = 400 + index as u64;
        jobs.push(Job::new(name, move |record| {
            run(&mut Random::new(seed, stream), record)
        }));
    }
    jobs
}
