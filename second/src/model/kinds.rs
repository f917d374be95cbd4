//! Document 01, what sets the kinds of word apart: one row for each. Words,
//! reader, writer, listing and readings ask the row and know of no kind
//! themselves.
//! Written from document 01 alone; it shares nothing with crates/.

use super::digits::power;

#[derive(Clone, Copy)]
pub struct Kind {
    /// Its byte in a block file.
    pub byte: i128,
    /// What the document calls its words.
    pub called: &'static str,
    /// Its name in a listing.
    pub listed: &'static str,
    /// The least number of a width; the greatest is 2^(n-1) - 1 in each kind.
    pub least: fn(i128) -> i128,
    /// The most that a round bit may be, 0 for a kind that has none.
    pub most_round: i128,
    /// The value of a number and its round bit, counted in half units.
    pub half_units: fn(i128, i128) -> i128,
}

pub const PLAIN: Kind = Kind {
    byte: 0,
    called: "plain",
    listed: "PLAIN",
    least: in_twos_complement,
    most_round: 0,
    half_units: |number, _| 2 * number,
};

pub const ROUND_BIT: Kind = Kind {
    byte: 1,
    called: "round-bit",
    listed: "RN",
    least: in_twos_complement,
    most_round: 1,
    half_units: |number, round| 2 * (number + round),
};

pub const HALF_UNIT: Kind = Kind {
    byte: 2,
    called: "half-unit",
    listed: "HUB",
    least: in_twos_complement,
    most_round: 0,
    half_units: |number, _| 2 * number + 1,
};

pub const KINDS: &[Kind] = &[PLAIN, ROUND_BIT, HALF_UNIT];

fn in_twos_complement(width: i128) -> i128 {
    -power(width - 1)
}

/// The kind that a file's byte names, if it names one.
pub fn kind_of(byte: i128) -> Option<Kind> {
    KINDS.iter().copied().find(|kind| kind.byte == byte)
}

impl Kind {
    /// Only asked of a width that is one: others have no range of numbers.
    pub fn fits(&self, number: i128, width: i128) -> bool {
        (self.least)(width) <= number && number <= power(width - 1) - 1
    }

    /// Neither side of cause 3: the number fits, and the round bit is one.
    pub fn allows(&self, number: i128, round: i128, width: i128) -> bool {
        self.fits(number, width) && 0 <= round && round <= self.most_round
    }
}
