//! Cases for a program that runs take in and take out on cases from standard input.
//!
//! A case on standard input: the kind (0 take in, 1 take out), n, T, c (0 for take out), the length of the
//! plan, the length of the label and the number of lent entries of the table, each 16 bits, high byte
//! first; the label; the plan; then the entries of the table before the call, each 16 bits, high byte first.
//!
//! The expected output has one line a case: the label, a colon, a space and the number; then, behind " |",
//! the lent table after the call, in runs as in `reach_cases`; the value 0 is left out.

mod drawn;
mod entries;
mod examples;
mod limits;
mod refusals;

use crate::answer::number;
use crate::band::{Taking, BAND_SLOTS};
use crate::files::{case_bytes, words_bytes, Filed};
use crate::pair_cases::LabelledPlan;
use crate::plan::{PlanInput, NO_KEEPING, NO_TURNAROUND};
use crate::reach_cases::narrow_text;

/// The longest label, in bytes.
pub const LONGEST_LABEL: usize = 80;
/// The most entries of a table that the program lends.
pub const LONGEST_TABLE: usize = 300;

/// One call of take in or take out.
#[derive(Clone, Debug, PartialEq, Eq)]
pub struct Case {
    pub label: String,
    pub taking: Taking,
    /// n
    pub stations: u16,
    /// T
    pub slots: u16,
    pub bytes: Vec<u8>,
    /// The table before the call.
    pub table: Vec<u16>,
    /// The number stated by hand; none for a generated case.
    pub stated: Option<u8>,
}

/// What a call answers and leaves: the number and the table.
#[derive(Clone, Debug, PartialEq, Eq)]
pub struct Outcome {
    pub number: u8,
    pub table: Vec<u16>,
}

impl Taking {
    /// The end of a label.
    fn text(self) -> String {
        match self {
            Taking::In(channels) => format!("in, c {channels}"),
            Taking::Out => "out".to_string(),
        }
    }
}

/// What stands behind the named entries of most tables: marks that every call leaves.
const BEHIND: [u16; 3] = [65535, 0, 7];

/// The 255 named entries, all of one value but those of some slots, and the marks behind them.
fn table(value: u16, slots: &[(usize, u16)]) -> Vec<u16> {
    let mut table = vec![value; BAND_SLOTS];
    for (slot, entry) in slots {
        table[slot - 1] = *entry;
    }
    [&table[..], &BEHIND].concat()
}

impl LabelledPlan {
    /// A case of a taking, on a table.
    fn taken(&self, taking: Taking, table: Vec<u16>) -> Case {
        let (stations, slots) = self.sizes;
        Case {
            label: format!("{}, {}", self.label, taking.text()),
            taking,
            stations,
            slots,
            bytes: self.bytes.clone(),
            table,
            stated: None,
        }
    }

    /// A case of a taking in, on a table.
    fn taken_in(&self, channels: u16, table: Vec<u16>) -> Case {
        self.taken(Taking::In(channels), table)
    }

    /// A case of a taking out, on a table.
    fn taken_out(&self, table: Vec<u16>) -> Case {
        self.taken(Taking::Out, table)
    }
}

impl Case {
    /// The case with words behind its label.
    fn labelled(mut self, words: &str) -> Case {
        self.label += words;
        self
    }

    /// The case with its number stated by hand.
    fn stating(self, number: u8) -> Case {
        Case {
            stated: Some(number),
            ..self
        }
    }

    pub fn input(&self) -> PlanInput<'_> {
        PlanInput {
            bytes: &self.bytes,
            stations: self.stations.into(),
            slots: self.slots.into(),
            turnaround: NO_TURNAROUND,
            keeping: NO_KEEPING,
        }
    }

    /// What the call answers and leaves.
    pub fn outcome(&self) -> Outcome {
        let mut table = self.table.clone();
        let answer = self.taking.take(self.input(), &mut table);
        let number = number(&answer);
        Outcome { number, table }
    }

    /// The line of an outcome, without its end.
    pub fn line(&self, Outcome { number, table }: &Outcome) -> String {
        format!("{}: {number}{}", self.label, narrow_text(table, 0))
    }
}

impl Filed for Case {
    fn stdin(&self) -> Vec<u8> {
        let (kind, channels) = match self.taking {
            Taking::In(channels) => (0, channels),
            Taking::Out => (1, 0),
        };
        let [plan, label, table] =
            [self.bytes.len(), self.label.len(), self.table.len()].map(|length| length as u16);
        let sizes = [kind, self.stations, self.slots, channels];
        let words = [&sizes[..], &[plan, label, table]].concat();
        let mut bytes = case_bytes(&words, &[], &self.label, &self.bytes);
        bytes.extend(words_bytes(self.table.iter().copied()));
        bytes
    }

    fn stdout(&self) -> String {
        self.line(&self.outcome()) + "\n"
    }
}

/// All cases, in the order of the files.
pub fn all_cases() -> Vec<Case> {
    [
        examples::cases(),
        entries::cases(),
        refusals::cases(),
        limits::cases(),
        drawn::cases(),
    ]
    .concat()
}
