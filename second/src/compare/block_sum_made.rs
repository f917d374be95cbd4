//! Blocks made from their whole sum down: each sum is parted into those of its two
//! halves, until single records are left. So it is known before a block is added, and
//! by neither program, whether every step fits or which one does not.

use super::random::Random;
use super::reading_records::Entry;
use crate::model::layout::FileNumber;

/// How the numbers of two halves lie to each other.
#[derive(Clone, Copy)]
enum Spread {
    FarApart,
    Alike,
    Anyhow,
}

const SPREADS: [Spread; 3] = [Spread::FarApart, Spread::Alike, Spread::Anyhow];

struct Maker<'a> {
    random: &'a mut Random,
    /// Numbers go from -half to half - 1.
    half: FileNumber,
    /// One for all steps, or none for any at each.
    spread: Option<Spread>,
    /// Both halves have the round bit of their sum so many times in four.
    both: u64,
    entries: Vec<Entry>,
}

impl Maker<'_> {
    fn new(random: &mut Random, width: u32) -> Maker<'_> {
        let spread = match random.below(4) {
            0 => None,
            _ => Some(random.one_of(&SPREADS)),
        };
        let both = random.below(5);
        Maker {
            random,
            half: 1 << (width - 1),
            spread,
            both,
            entries: Vec::new(),
        }
    }

    /// So many records, not 0, that add up to this sum. It may pass the width, as far as
    /// a step can; all steps below it fit.
    fn fill(&mut self, count: usize, sum: Entry) {
        if count == 1 {
            self.entries.push(sum);
            return;
        }
        let rounds = self.rounds(sum.1);
        let number = self.first_number(rest(sum, rounds));
        self.fill(count / 2, (number, rounds.0));
        let number = rest(sum, rounds) - number;
        self.fill(count - count / 2, (number, rounds.1));
    }

    /// Those of two halves whose sum has this round bit.
    fn rounds(&mut self, round: u8) -> (u8, u8) {
        match round {
            0 => (0, 0),
            _ if self.random.below(4) < self.both => (1, 1),
            _ => self.random.one_of(&[(0, 1), (1, 0)]),
        }
    }

    /// The first of two numbers that both fit and make this together.
    fn first_number(&mut self, together: FileNumber) -> FileNumber {
        let least = (-self.half).max(together - (self.half - 1));
        let most = (self.half - 1).min(together + self.half);
        let spread = match self.spread {
            None => self.random.one_of(&SPREADS),
            Some(spread) => spread,
        };
        match spread {
            Spread::FarApart => self.random.one_of(&[least, most]),
            Spread::Alike => together.div_euclid(2),
            Spread::Anyhow => least + self.random.below((most - least + 1) as u64) as FileNumber,
        }
    }

    /// As `fill`, of a sum that fits, with one step below it that does not: 3 records or
    /// more. Of a rest of -1 there are no two parts of which just one fits; so neither 0
    /// nor -1 is taken for a sum here.
    fn fill_past(&mut self, count: usize, sum: Entry) {
        let rounds = self.rounds(sum.1);
        let together = rest(sum, rounds);
        let (smaller, larger) = (count / 2, count - count / 2);
        let in_first = smaller >= 2 && self.random.once_in(2);
        let below = if in_first { smaller } else { larger };
        let deeper = below >= 3 && !self.random.once_in(4);
        let number = match deeper {
            true => self.not_near_0(together),
            false => self.just_past(together),
        };
        let other = together - number;
        let go_on = |maker: &mut Self, sum| match deeper {
            true => maker.fill_past(below, sum),
            false => maker.fill(below, sum),
        };
        if in_first {
            go_on(self, (number, rounds.0));
            self.fill(larger, (other, rounds.1));
        } else {
            self.fill(smaller, (other, rounds.0));
            go_on(self, (number, rounds.1));
        }
    }

    /// A number that fits, with the other part of the rest, and is neither 0 nor -1.
    fn not_near_0(&mut self, together: FileNumber) -> FileNumber {
        match self.first_number(together) {
            -1 | 0 if together >= 0 => self.half - 1,
            -1 | 0 => -self.half,
            number => number,
        }
    }

    /// A number that does not fit, while the other part of the rest does. Two that fit
    /// can make it, with or without a carry.
    fn just_past(&mut self, together: FileNumber) -> FileNumber {
        let most_off = |free: FileNumber, half: FileNumber| free.min(half - 2) as u64;
        if together >= 0 {
            let off = self.random.below(most_off(together, self.half) + 1);
            self.half + off as FileNumber
        } else {
            let off = self.random.below(most_off(-2 - together, self.half) + 1);
            -self.half - 1 - off as FileNumber
        }
    }

    fn any_round(&mut self) -> u8 {
        self.random.below(2) as u8
    }
}

/// What the numbers of two halves with these round bits make together.
fn rest(sum: Entry, rounds: (u8, u8)) -> FileNumber {
    sum.0 - (rounds.0 & rounds.1) as FileNumber
}

/// Every step fits; any number of records.
pub fn fits(random: &mut Random, width: u32, count: usize) -> Vec<Entry> {
    let mut maker = Maker::new(random, width);
    let round = maker.any_round();
    fitting(maker, count, round)
}

/// Every step fits, and every record has the round bit.
pub fn fits_with_ones(random: &mut Random, width: u32, count: usize) -> Vec<Entry> {
    let mut maker = Maker::new(random, width);
    maker.both = 4;
    fitting(maker, count, 1)
}

fn fitting(mut maker: Maker, count: usize, round: u8) -> Vec<Entry> {
    if count > 0 {
        let number = maker.first_number(-1);
        maker.fill(count, (number, round));
    }
    maker.entries
}

/// One step does not fit, and the whole sum would; 3 records or more.
pub fn past_within(random: &mut Random, width: u32, count: usize) -> Vec<Entry> {
    let mut maker = Maker::new(random, width);
    let sum = (maker.not_near_0(-1), maker.any_round());
    maker.fill_past(count, sum);
    maker.entries
}

/// Only the last step does not fit; 2 records or more.
pub fn past_at_last(random: &mut Random, width: u32, count: usize) -> Vec<Entry> {
    let mut maker = Maker::new(random, width);
    let together = maker.random.one_of(&[0, -2, maker.half - 2, -maker.half]);
    let sum = (maker.just_past(together), maker.any_round());
    maker.fill(count, sum);
    maker.entries
}
