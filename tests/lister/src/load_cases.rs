//! Cases for a program that prints what a load program prints, on inputs and turnarounds that it reads from standard
//! input; and the files of the load program with g = 1.
//!
//! A case on standard input: the length of the label, the length of the input, and g, each 16 bits, high
//! byte first; then the label; then the input. The expected output of a case: the label, a colon, a
//! line feed, then all that a load program with this g prints for the input.
//!
//! The files of the load program with g = 1 name no g: a case there is the length of the label and the length of the
//! input, the label and the input.

mod causes;
mod counts;
mod digits;
mod examples;
mod generated;
mod ladders;
mod lengths;
mod records;
mod sizes;
mod turnarounds;

use crate::cases::{plan_bytes, Record};
use crate::causes::known_turnaround;
use crate::files::{case_bytes, Filed};
use crate::load_program::load_text;
use crate::plan::RECORD_BYTES;

pub use causes::FAULTS;
pub use counts::inputs as large_counts;
pub use digits::{cycle, rare_path, RarePath, RARE_PATHS};
pub use examples::inputs as example_inputs;
pub use generated::{damaged_inputs, valid_plan, Size, SIZES};
pub use ladders::layered;
pub use lengths::spread_records;
pub use turnarounds::{by_hand, stretched, RARE_TWO_SLOTS};

/// The longest label, in bytes.
pub const LONGEST_LABEL: usize = 60;
/// The longest input, in bytes.
pub const LONGEST_INPUT: usize = 6_172;
/// The longest text that a load program prints, in bytes: n 32 and T 63, contacts of 4 digits, all
/// pairs of 3, all loads of 13.
pub const LONGEST_TEXT: usize = 697;
/// The most records of which no choice gives 2^64 walks: a walk has each of its records once, in their order.
const FEW_RECORDS: usize = 63;

/// An input of a load program.
#[derive(Clone, Debug, PartialEq, Eq)]
pub struct Input {
    pub label: String,
    /// The load program's standard input.
    pub bytes: Vec<u8>,
    /// The number stated by hand for g = 1, 0 where loads are printed; none for a damaged plan.
    pub stated: Option<u8>,
}

impl Input {
    /// Bytes, with their number stated by hand.
    pub fn on_bytes(label: &str, bytes: Vec<u8>, stated: u8) -> Input {
        Input {
            label: label.to_string(),
            bytes,
            stated: Some(stated),
        }
    }

    /// Records, with their number stated by hand.
    pub fn on_records(label: &str, records: &[Record], stated: u8) -> Input {
        Input::on_bytes(label, plan_bytes(records), stated)
    }

    /// The number that follows from the one stated for g = 1. A cause of the plan does not depend on g, and no other
    /// cause is before 12. With few records there is no 9; with more it is left open.
    fn stated_with(&self, turnaround: u16) -> Option<u8> {
        let stated = self.stated?;
        let is_plan = [0, 9].contains(&stated);
        match turnaround {
            1 => Some(stated),
            _ if !is_plan => Some(stated),
            _ if known_turnaround(turnaround.into()).is_err() => Some(12),
            _ => (self.bytes.len() <= FEW_RECORDS * RECORD_BYTES).then_some(0),
        }
    }

    /// The case of this input with a turnaround.
    pub fn turning(&self, turnaround: u16) -> Case {
        Case {
            label: format!("{}, g {turnaround}", self.label),
            turnaround,
            bytes: self.bytes.clone(),
            stated: self.stated_with(turnaround),
        }
    }
}

/// Inputs of a table: label, records, number.
pub fn on_table(table: &[(&str, &[Record], u8)]) -> Vec<Input> {
    let input = |(label, records, stated): &(&str, &[Record], u8)| {
        Input::on_records(label, records, *stated)
    };
    table.iter().map(input).collect()
}

/// The inputs of the load program with g = 1, in the order of its files.
fn one_slot_inputs() -> Vec<Input> {
    [
        examples::inputs(),
        lengths::inputs(),
        sizes::inputs(),
        records::inputs(),
        causes::inputs(),
        digits::inputs(),
        counts::inputs(),
        ladders::inputs(),
        generated::inputs(),
    ]
    .concat()
}

/// Every input.
pub fn all_inputs() -> Vec<Input> {
    [one_slot_inputs(), turnarounds::inputs()].concat()
}

/// One run of a load program.
#[derive(Clone, Debug, PartialEq, Eq)]
pub struct Case {
    pub label: String,
    /// g
    pub turnaround: u16,
    /// The load program's standard input.
    pub bytes: Vec<u8>,
    /// The number stated by hand, 0 where loads are printed; none where it is left open.
    pub stated: Option<u8>,
}

impl Case {
    /// The case with its number stated by hand.
    fn stating(self, number: u8) -> Case {
        let stated = Some(number);
        Case { stated, ..self }
    }

    /// What the load program prints.
    pub fn text(&self) -> String {
        load_text(self.turnaround.into(), &self.bytes)
    }
}

/// All cases, in the order of the files: the inputs of the program with g = 1, now with g = 2, and those of
/// `turnarounds`.
pub fn all_cases() -> Vec<Case> {
    let two_slots = one_slot_inputs().into_iter().map(|input| input.turning(2));
    two_slots.chain(turnarounds::cases()).collect()
}

impl Filed for Case {
    fn stdin(&self) -> Vec<u8> {
        let [label, input] = [self.label.len(), self.bytes.len()].map(|length| length as u16);
        case_bytes(
            &[label, input, self.turnaround],
            &[],
            &self.label,
            &self.bytes,
        )
    }

    fn stdout(&self) -> String {
        format!("{}:\n{}", self.label, self.text())
    }
}

/// One run of the load program with g = 1.
#[derive(Clone, Debug, PartialEq, Eq)]
pub struct OneSlotCase(pub Input);

/// The cases of the load program with g = 1, in the order of its files.
pub fn one_slot_cases() -> Vec<OneSlotCase> {
    one_slot_inputs().into_iter().map(OneSlotCase).collect()
}

impl Filed for OneSlotCase {
    fn stdin(&self) -> Vec<u8> {
        let OneSlotCase(input) = self;
        let head = [input.label.len(), input.bytes.len()].map(|length| length as u16);
        case_bytes(&head, &[], &input.label, &input.bytes)
    }

    fn stdout(&self) -> String {
        let OneSlotCase(input) = self;
        format!("{}:\n{}", input.label, load_text(1, &input.bytes))
    }
}
