//! What is counted: the cases and differences of each part, and how often each
//! operation gave each refusal number. An operation's row says, from documents
//! 01 and 02, which numbers it can give; one that did not occur, or another that
//! did, is a failure.

use crate::model::causes::{CAUSES, DONE};

/// A place for done, one for each cause, and one for every other number.
const PLACES: usize = CAUSES.len() + 2;
const OTHER: usize = PLACES - 1;

/// More than this many differences of one part are counted but not printed.
const PRINTED_DIFFERENCES: u64 = 3;

/// One row of the tally: who answers, and the causes it can refuse by.
#[derive(Clone, Copy)]
pub struct Row {
    pub name: &'static str,
    pub refuses: &'static [u32],
}

/// What one part counts.
pub struct Record {
    pub cases: u64,
    pub differences: u64,
    numbers: Vec<[u64; PLACES]>,
}

impl Record {
    pub fn new(rows: usize) -> Record {
        Record {
            cases: 0,
            differences: 0,
            numbers: vec![[0; PLACES]; rows],
        }
    }

    /// Counts a refusal number that the library gave.
    pub fn answer(&mut self, row: usize, refusal: u32) {
        self.numbers[row][place_of(refusal)] += 1;
    }

    /// Counts one case; a difference is printed, the first few in full.
    pub fn check(&mut self, agrees: bool, describe: impl FnOnce() -> String) {
        self.cases += 1;
        if agrees {
            return;
        }
        self.differences += 1;
        if self.differences <= PRINTED_DIFFERENCES {
            println!("DIFFERENCE in {}", describe());
        }
    }

    /// Adds what another part counted.
    pub fn add(&mut self, other: &Record) {
        self.cases += other.cases;
        self.differences += other.differences;
        for (mine, others) in self.numbers.iter_mut().zip(&other.numbers) {
            for place in 0..PLACES {
                mine[place] += others[place];
            }
        }
    }

    /// One line for each row; answers for each whether it is as the row says.
    pub fn print_tally(&self, rows: &[Row]) -> Vec<bool> {
        let both = rows.iter().zip(&self.numbers);
        both.map(|(row, times)| print_row(row, times)).collect()
    }
}

fn place_of(refusal: u32) -> usize {
    if refusal == DONE {
        return 0;
    }
    match CAUSES.iter().position(|cause| *cause == refusal) {
        Some(index) => index + 1,
        None => OTHER,
    }
}

fn print_row(row: &Row, times: &[u64; PLACES]) -> bool {
    let mut line = String::new();
    let mut good = true;
    for place in 0..PLACES {
        let expected = is_expected(row, place);
        if times[place] > 0 {
            line += &format!(" {}:{}", number_name(place), times[place]);
        }
        if expected != (times[place] > 0) {
            good = false;
            line += &complaint(place, expected);
        }
    }
    // A number that is no cause has no place, and would never be missed.
    for number in row.refuses {
        if !CAUSES.contains(number) {
            good = false;
            line += &format!(" ({} is no cause)", number);
        }
    }
    println!(
        "{} tally, {}:{}",
        if good { "ok  " } else { "FAIL" },
        row.name,
        line
    );
    good
}

/// Every operation can be done.
fn is_expected(row: &Row, place: usize) -> bool {
    match place {
        0 => true,
        OTHER => false,
        _ => row.refuses.contains(&CAUSES[place - 1]),
    }
}

fn number_name(place: usize) -> String {
    match place {
        0 => DONE.to_string(),
        OTHER => "other".to_string(),
        _ => CAUSES[place - 1].to_string(),
    }
}

fn complaint(place: usize, expected: bool) -> String {
    let what = if expected {
        "did not occur"
    } else {
        "cannot occur"
    };
    format!(" ({} {})", number_name(place), what)
}
