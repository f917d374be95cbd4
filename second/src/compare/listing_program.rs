//! The listing program, run as a program on a thousand files.

use super::blocks::file_text;
use super::file_read_case::version_of;
use super::limit_blocks;
use super::listings::{beginning, printed_number};
use super::operations::{PROGRAM_PRINTED, PROGRAM_PRINTED_OF};
use super::tally::Record;
use crate::model::listing;
use std::io::Write;
use std::process::{ChildStdin, Command, Stdio};
use std::time::Duration;

pub fn run_listings(seed: u64, program: &str, record: &mut Record) {
    let files = limit_blocks::thousand(seed);
    for (index, file) in files.iter().enumerate() {
        compare_run(program, file, index % 8 == 0, record);
    }
}

fn compare_run(program: &str, file: &[u8], in_pieces: bool, record: &mut Record) {
    let expected = listing::listing(file);
    let printed = match run(program, file, in_pieces) {
        Ok(printed) => printed,
        Err(fault) => {
            record.check(false, || {
                format!(
                    "the listing program\n  case:    {}\n  {}",
                    file_text(file),
                    fault
                )
            });
            return;
        }
    };
    record.answer(PROGRAM_PRINTED, printed_number(&printed));
    if let Some(version) = version_of(file) {
        record.answer(PROGRAM_PRINTED_OF[version], printed_number(&printed));
    }
    record.check(printed == expected.as_bytes(), || {
        format!(
            "the listing program\n  case:    {}\n  \
             program: {} bytes {:?}\n  second:  {} bytes {:?}",
            file_text(file),
            printed.len(),
            beginning(&printed),
            expected.len(),
            beginning(expected.as_bytes())
        )
    });
}

/// The document says nothing of an exit status, so any will do; but a program
/// that a signal ended did not end by itself.
fn run(program: &str, file: &[u8], in_pieces: bool) -> Result<Vec<u8>, String> {
    let started = Command::new(program)
        .stdin(Stdio::piped())
        .stdout(Stdio::piped())
        .stderr(Stdio::null())
        .spawn();
    let mut child = started.map_err(|fault| format!("cannot start {}: {}", program, fault))?;
    let input = child.stdin.take().expect("a pipe to the program");
    let output = std::thread::scope(|scope| {
        scope.spawn(|| feed(input, file, in_pieces));
        child.wait_with_output()
    });
    let output = output.map_err(|fault| format!("cannot read from {}: {}", program, fault))?;
    match output.status.code() {
        Some(_) => Ok(output.stdout),
        None => Err(format!("{} was ended: {}", program, output.status)),
    }
}

/// A program may stop reading once it has seen too much: that is no fault, so
/// a broken pipe is let pass. In pieces, it has to ask for more than once.
fn feed(mut input: ChildStdin, file: &[u8], in_pieces: bool) {
    let piece = if in_pieces {
        file.len() / 2 + 1
    } else {
        file.len().max(1)
    };
    for bytes in file.chunks(piece) {
        if input.write_all(bytes).and_then(|_| input.flush()).is_err() {
            return;
        }
        if in_pieces {
            std::thread::sleep(Duration::from_millis(2));
        }
    }
}
