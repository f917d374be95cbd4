//! What the filter bank is given, and its call in both programs on one case.

use super::case::{Operand, Reply};
use super::fall;
use super::library::{frost_bank_output, OfModel};
use super::operations::BANK_OUTPUT;
use super::tally::Record;
use crate::model::bank::{self, CHANNELS, TAPS};
use crate::model::causes::ANSWER_DOES_NOT_FIT;

pub type Row = [Operand; TAPS];

#[derive(Clone, Copy)]
pub struct BankCase {
    pub bank: [Row; CHANNELS],
    pub window: Row,
    pub channel: u32,
}

/// The words that are looked at: a channel's taps, and after them the samples.
pub const PLACES: usize = 2 * TAPS;

impl BankCase {
    pub const BLANK: BankCase = BankCase {
        bank: [[Operand::BLANK; TAPS]; CHANNELS],
        window: [Operand::BLANK; TAPS],
        channel: 0,
    };

    /// The row of the channel, which must be one.
    pub fn taps(&mut self) -> &mut Row {
        &mut self.bank[self.channel as usize]
    }

    /// The taps if so, else the samples.
    pub fn row(&mut self, of_taps: bool) -> &mut Row {
        if of_taps {
            self.taps()
        } else {
            &mut self.window
        }
    }

    pub fn word(&mut self, place: usize) -> &mut Operand {
        &mut self.row(place < TAPS)[place % TAPS]
    }

    /// A line for each row, a word as number, round bit, width, unit.
    pub fn describe(&self) -> String {
        let mut text = format!("channel {}", self.channel);
        for (channel, taps) in self.bank.iter().enumerate() {
            text += &format!("\n  row {}:   {}", channel, words_text(taps));
        }
        text + &format!("\n  samples: {}", words_text(&self.window))
    }
}

fn words_text(row: &Row) -> String {
    let word = |w: &Operand| format!("({}, {}, {}, {})", w.number, w.round, w.width, w.unit);
    row.iter().map(word).collect::<Vec<_>>().join(" ")
}

/// Calls both programs and compares all that they answer. The library's answer
/// is given back, for checks of more than one call.
pub fn compare(case: &BankCase, record: &mut Record) -> Reply {
    let bank = case.bank.map(|row| row.map(Operand::word));
    let window = case.window.map(Operand::word);
    let (library_bank, library_window) = (OfModel::of(bank), OfModel::of(window));
    fall::about_to_call_bank("frost_bank_output", case);
    let answer = unsafe { frost_bank_output(library_bank, library_window, case.channel) };
    fall::back();
    let library: Reply = answer.model().into();
    let second: Reply = bank::output(&bank, &window, case.channel as i128).into();
    record.answer(BANK_OUTPUT, library.refusal);
    // "Show that 8 never occurs inside it": two programs that agree on one are wrong.
    let agrees = library == second && second.refusal != ANSWER_DOES_NOT_FIT;
    record.check(agrees, || {
        format!(
            "frost_bank_output\n  case:    {}\n  library: {:?}\n  second:  {:?}",
            case.describe(),
            library,
            second
        )
    });
    library
}
