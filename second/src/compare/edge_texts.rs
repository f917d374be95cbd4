//! Digit texts at and just past the edges of what is allowed.

use super::case::ROUND_BIT_WORD;
use super::edges::{edge_words, EDGE_UNITS};
use super::job::Job;
use super::limits::*;
use super::tally::Record;
use super::texts;

pub fn jobs() -> Vec<Job> {
    vec![
        Job::new("edges, frost_digit_text_write", write_texts),
        Job::new("edges, frost_digit_text_read", read_texts),
    ]
}

fn write_texts(record: &mut Record) {
    for word in edge_words(ROUND_BIT_WORD) {
        // A width that is no width has no text: any small room will do.
        let n = word.width.min(MOST_WIDTH + 1) as usize;
        for room in [0, 1, n.saturating_sub(1), n, n + 1, 300] {
            texts::compare_write(word, room, record);
        }
    }
}

/// The last ones look like 2, 63, 64 and 2 to a program that drops digits.
fn edge_lengths() -> Vec<usize> {
    let (least, most) = (LEAST_WIDTH as usize, MOST_WIDTH as usize);
    let mut lengths: Vec<usize> = (0..=least + 1).collect();
    lengths.extend([31, 32, 33]);
    lengths.extend(most - 2..=most + 2);
    lengths.extend([100, 127, 256]);
    lengths.extend([256 + least, 256 + most, 257 + most, 65_536 + least]);
    lengths
}

fn read_texts(record: &mut Record) {
    for length in edge_lengths() {
        for text in edge_texts(length) {
            for unit in EDGE_UNITS {
                texts::compare_read(&text, unit, record);
            }
        }
    }
}

/// Zeros; one digit at each end; both ends alike and unlike; every place
/// filled; and each of these with a strange byte at either end.
fn edge_texts(length: usize) -> Vec<Vec<u8>> {
    let mut texts = vec![vec![b'0'; length]];
    for first in [b'+', b'-', b'0'] {
        for last in [b'+', b'-', b'0', b' '] {
            texts.push(with_ends(length, first, last));
            texts.push(with_ends(length, last, first));
        }
        texts.push(alternating(length, first));
    }
    let mut middle = alternating(length, b'-');
    if length > 2 {
        middle[length / 2] = middle[length / 2 - 1];
    }
    texts.push(middle);
    texts
}

fn with_ends(length: usize, first: u8, last: u8) -> Vec<u8> {
    let mut text = vec![b'0'; length];
    if length > 0 {
        text[length - 1] = last;
        text[0] = first;
    }
    text
}

pub fn alternating(length: usize, first: u8) -> Vec<u8> {
    let other = if first == b'+' { b'-' } else { b'+' };
    (0..length)
        .map(|i| if i % 2 == 0 { first } else { other })
        .collect()
}
