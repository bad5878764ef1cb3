//! Cases for a program that runs operation 1, check, on cases from standard input.
//!
//! A case on standard input: n, T, the length of the plan and the length of the label, each 16 bits,
//! high byte first; then the label; then the plan. The expected output has one line a case: the
//! label, a space, and the number, 0 where the plan is accepted.

mod causes;
mod generated;
mod limits;
mod records;

use std::collections::BTreeSet;

use crate::answer::number;
use crate::files::{case_bytes, words_bytes, Filed};
use crate::plan::{check, PlanInput, KEPT, NO_TURNAROUND};

pub use generated::{damage, generated_cases, valid_records, SEED};

/// The longest label, in bytes.
pub const LONGEST_LABEL: usize = 60;

/// A record: slot, a, b, unchecked.
pub type Record = (u16, u16, u16);

/// Document 01's plan A doubled, with n = 5 and T = 4.
pub const PLAN_A: [Record; 12] = [
    (1, 0, 1),
    (1, 0, 2),
    (1, 1, 0),
    (1, 2, 0),
    (2, 1, 3),
    (2, 2, 3),
    (2, 3, 1),
    (2, 3, 2),
    (3, 2, 3),
    (3, 3, 2),
    (4, 3, 4),
    (4, 4, 3),
];

/// Each record and the one with sender and hearer exchanged, in order and each once: two stations
/// that hear each other.
pub fn doubled(records: &[Record]) -> Vec<Record> {
    let both = |(slot, a, b): &Record| [(*slot, *a, *b), (*slot, *b, *a)];
    let both: BTreeSet<Record> = records.iter().flat_map(both).collect();
    both.into_iter().collect()
}

/// The bytes of records, each field high byte first.
pub fn plan_bytes(records: &[Record]) -> Vec<u8> {
    let fields = records.iter().flat_map(|(slot, a, b)| [*slot, *a, *b]);
    words_bytes(fields).collect()
}

/// The first records of a plan of 256 stations, in order; up to 65,280 of them are in slot 1.
pub fn first_records(count: usize) -> Vec<Record> {
    let of_a = |a: u16| (0..256).filter(move |b| *b != a).map(move |b| (1, a, b));
    (0..256).flat_map(of_a).take(count).collect()
}

/// One call of check.
#[derive(Clone, Debug, PartialEq, Eq)]
pub struct Case {
    pub label: String,
    /// n
    pub stations: u16,
    /// T
    pub slots: u16,
    pub bytes: Vec<u8>,
    /// The number stated by hand; none for a generated case.
    pub stated: Option<u8>,
}

impl Case {
    /// A case on bytes, with its number stated by hand.
    fn on_bytes(label: &str, (stations, slots): (u16, u16), bytes: Vec<u8>, stated: u8) -> Case {
        Case {
            label: label.to_string(),
            stations,
            slots,
            bytes,
            stated: Some(stated),
        }
    }

    /// A case on records, with its number stated by hand.
    fn on_records(label: &str, sizes: (u16, u16), records: &[Record], stated: u8) -> Case {
        Case::on_bytes(label, sizes, plan_bytes(records), stated)
    }

    /// The number that check gives.
    pub fn number(&self) -> u8 {
        number(&check(PlanInput {
            bytes: &self.bytes,
            stations: usize::from(self.stations),
            slots: usize::from(self.slots),
            turnaround: NO_TURNAROUND,
            keeping: KEPT,
        }))
    }
}

/// All cases, in the order of the files.
pub fn all_cases() -> Vec<Case> {
    [
        limits::cases(),
        records::cases(),
        causes::cases(),
        generated_cases(),
    ]
    .concat()
}

impl Filed for Case {
    fn stdin(&self) -> Vec<u8> {
        let lengths = [self.bytes.len(), self.label.len()].map(|length| length as u16);
        let head = [self.stations, self.slots, lengths[0], lengths[1]];
        case_bytes(&head, &[], &self.label, &self.bytes)
    }

    fn stdout(&self) -> String {
        format!("{} {}\n", self.label, self.number())
    }
}
