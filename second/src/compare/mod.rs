//! The comparison: the library under test, through its C functions, against
//! the model.

mod bad_banks;
mod bad_blocks;
mod bank;
mod bank_case;
mod bank_refusals;
mod bank_sheet;
mod bank_values;
mod bank_words;
mod bench_sheet;
mod binary64;
mod binary64_back;
mod binary64_bits;
mod binary64_c;
mod binary64_case;
mod binary64_causes;
mod binary64_edges;
mod binary64_fields;
mod binary64_laws;
mod binary64_random;
mod binary64_sheet;
mod binary64_sheet_formats;
mod binary64_sheet_refused;
mod binary64_small;
mod block_sum_case;
mod block_sum_causes;
mod block_sum_commutes;
mod block_sum_exhaustive;
mod block_sum_laws;
mod block_sum_lent;
mod block_sum_long;
mod block_sum_made;
mod block_sum_orders;
mod block_sum_random;
mod block_sum_refusals;
mod block_sum_running;
mod block_sum_sheet;
mod block_sum_sheet_long;
mod block_sum_sheet_refused;
mod block_sum_spoilt;
mod block_sum_trees;
mod block_sums;
mod blocks;
mod call;
mod case;
mod edge_texts;
mod edges;
mod even_cuts;
mod even_laws;
mod even_sheet;
mod exhaustive;
mod fall;
mod file_law_cases;
mod file_laws;
mod file_numbers;
mod file_read_case;
mod file_sheet;
mod file_versions;
mod file_write_case;
mod files;
mod files_read;
mod files_written;
mod functions;
mod huge;
mod job;
mod lent;
mod library;
mod limit_blocks;
mod limits;
mod listing_laws;
mod listing_program;
mod listings;
mod move_case;
mod move_ends;
mod move_even;
mod move_late;
mod move_laws;
mod move_lists;
mod move_sheet;
mod move_sheet_half_off;
mod move_sheet_refused;
mod move_ways;
mod move_words;
mod moves;
mod operations;
mod place_laws;
mod place_sheet;
mod place_texts;
mod places;
mod random;
mod random_cases;
mod reading_case;
mod reading_causes;
mod reading_far;
mod reading_laws;
mod reading_random;
mod reading_records;
mod reading_refusals;
mod reading_runs;
mod reading_sheet;
mod reading_sheet_refused;
mod reading_small;
mod reading_values;
mod readings;
mod refusals;
mod sums;
mod tally;
mod texts;

use job::Job;
use tally::Record;

/// Compares all, and prints every part and the tally. Answers how many checks
/// passed and how many failed.
pub fn all(seed: u64, program: &str) -> (usize, usize) {
    fall::watch();
    let (results, total) = job::run_all(&all_jobs(seed, program));
    let mut passed = results.iter().filter(|good| **good).count();
    let mut failed = results.len() - passed;
    for good in total.print_tally(&operations::rows()) {
        passed += good as usize;
        failed += !good as usize;
    }
    println!(
        "{} cases compared, {} differences",
        total.cases, total.differences
    );
    (passed, failed)
}

fn all_jobs(seed: u64, program: &str) -> Vec<Job> {
    let mut jobs = vec![Job::new("every operation is named once", names)];
    jobs.extend(bench_sheet::jobs());
    jobs.extend(exhaustive::jobs());
    jobs.extend(edges::jobs());
    jobs.extend(edge_texts::jobs());
    jobs.extend(huge::jobs());
    jobs.extend(random_cases::jobs(seed));
    jobs.extend(even_cuts::jobs(seed));
    jobs.extend(moves::jobs(seed));
    jobs.extend(places::jobs(seed));
    jobs.extend(sums::jobs(seed));
    jobs.extend(block_sums::jobs(seed));
    jobs.extend(bank::jobs(seed));
    jobs.extend(files::jobs(seed));
    jobs.extend(readings::jobs(seed));
    jobs.extend(binary64::jobs(seed));
    jobs.extend(listings::jobs(seed, program));
    jobs
}

/// Rows are found by their names.
fn names(record: &mut Record) {
    for (row, operation) in operations::OPERATIONS.iter().enumerate() {
        let first = operations::row_of(operation.name);
        record.check(first == row, || {
            format!("{}: rows {} and {}", operation.name, first, row)
        });
    }
}
