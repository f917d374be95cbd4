//! Listings: the text that the library puts into a lent buffer.

use super::blocks::{self, any_file, each_byte_damaged, file_text, RANDOM_FILES};
use super::fall;
use super::file_read_case::version_of;
use super::job::Job;
use super::lent::Lent;
use super::library::{frost_listing_text, OfModel};
use super::limit_blocks;
use super::limits::*;
use super::listing_laws;
use super::listing_program;
use super::operations::{LISTING_CALL, LISTING_PRINTED, LISTING_PRINTED_OF};
use super::random::Random;
use super::tally::Record;
use crate::model::causes::DONE;
use crate::model::kinds::KINDS;
use crate::model::listing;

/// The longest lines there are; so many bytes are enough for any listing.
const FIRST_LINE: &str = "PLAIN 48 -127 8000\n";
const RECORD_LINE: &str = "7999 -140737488355328 0 -281474976710656\n";
pub const ENOUGH: usize = FIRST_LINE.len() + RECORD_LINE.len() * MOST_RECORDS;

/// Bytes: files with nearly as many records as any, in every version.
const LONG_FILE: usize = FIRST_LAYOUT.longest_file() - FIRST_LAYOUT.record_bytes();

pub fn jobs(seed: u64, program: &str) -> Vec<Job> {
    let program = program.to_string();
    vec![
        Job::new("listing text, damaged files", move |record| {
            list_damaged(&mut Random::new(seed, 500), record)
        }),
        Job::new("listing text, random files", move |record| {
            list_random(&mut Random::new(seed, 501), record)
        }),
        Job::new("listing text, every width", move |record| {
            listing_laws::every_width(&mut Random::new(seed, 502), record)
        }),
        Job::new("listing text, the longest", listing_laws::longest),
        Job::new("listing text, longer than any file", listing_laws::too_long),
        Job::new("listing text, a thousand files", move |record| {
            list_thousand(seed, record)
        }),
        Job::new("listing program, a thousand files", move |record| {
            listing_program::run_listings(seed, &program, record)
        }),
    ]
}

/// The library's text is given back, of no bytes if it was refused.
pub fn compare_listing(file: &[u8], text: &str, room: usize, record: &mut Record) -> Vec<u8> {
    let salt = record.cases;
    let mut lent = Lent::holding_bytes(file, salt);
    let before = lent.clone();
    let mut out = Lent::bytes(room, salt);
    let mut second_out = out.clone();
    fall::about_to_call("frost_listing_text", None, file);
    let answer = unsafe { frost_listing_text(lent.pointer(), file.len(), out.pointer(), room) };
    fall::back();
    let library = answer.model();
    let second = listing::write(file, second_out.lend());
    let printed = &out.content()[..(library.bytes as usize).min(room)];
    record.answer(LISTING_CALL, library.refusal);
    if library.refusal == DONE {
        record.answer(LISTING_PRINTED, printed_number(printed));
        if let Some(version) = version_of(file) {
            record.answer(LISTING_PRINTED_OF[version], printed_number(printed));
        }
    }
    let agrees = library == second && out == second_out && lent == before;
    record.check(agrees, || {
        format!(
            "frost_listing_text\n  case:    {}, room {}\n  library: {:?}\n  second:  {:?} {:?}\n  \
             first byte that differs (library, second): {}; byte of the file {}",
            file_text(file),
            room,
            library,
            second,
            beginning(text.as_bytes()),
            out.first_difference(&second_out),
            lent.first_difference(&before)
        )
    });
    printed.to_vec()
}

pub fn beginning(text: &[u8]) -> String {
    String::from_utf8_lossy(&text[..text.len().min(80)]).into_owned()
}

/// The number in the line `refused N`, or 0 if the text is a listing.
pub fn printed_number(text: &[u8]) -> u32 {
    let text = String::from_utf8_lossy(text);
    match text.strip_prefix("refused ") {
        Some(number) => number.trim_end_matches('\n').parse().unwrap_or(u32::MAX),
        None => DONE,
    }
}

/// Buffers exact, longer, one byte too short, and empty.
fn list_into_all_rooms(file: &[u8], record: &mut Record) {
    let text = listing::listing(file);
    let needed = text.len();
    for room in [needed, needed + 1, needed + 70, needed - 1, 0] {
        compare_listing(file, &text, room, record);
    }
}

/// Buffers that are enough for any listing, and one byte less: a caller need not know how long the text is.
fn list_into_large_rooms(file: &[u8], record: &mut Record) {
    let text = listing::listing(file);
    for room in [ENOUGH, ENOUGH - 1] {
        compare_listing(file, &text, room, record);
    }
}

fn list_damaged(random: &mut Random, record: &mut Record) {
    for &kind in KINDS {
        for width in all_end_widths() {
            let file = blocks::good(random, kind, width, -7, 2).bytes();
            each_byte_damaged(&file, |damaged| {
                let text = listing::listing(damaged);
                compare_listing(damaged, &text, text.len() + 3, record);
            });
        }
    }
}

fn list_random(random: &mut Random, record: &mut Record) {
    for _ in 0..RANDOM_FILES / 4 {
        let file = any_file(random);
        let text = listing::listing(&file);
        let room = random.room(text.len() as u64);
        compare_listing(&file, &text, room, record);
    }
}

fn list_thousand(seed: u64, record: &mut Record) {
    let document = listing::listing(&blocks::IN_THE_DOCUMENT);
    record.check(document == blocks::ITS_LISTING, || {
        format!("the listing in the document\n  second:  {:?}", document)
    });
    for (index, file) in limit_blocks::thousand(seed).iter().enumerate() {
        list_into_all_rooms(file, record);
        // Not all of them: a large buffer takes long to compare.
        if index % 16 == 0 || file.len() >= LONG_FILE {
            list_into_large_rooms(file, record);
        }
    }
}
