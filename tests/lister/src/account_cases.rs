//! Cases for a program that prints the account of a station, on inputs, turnarounds, stations and numbers of walks that
//! it reads from standard input.
//!
//! A case on standard input: the length of the label, the length of the input, g, the station and the number of walks,
//! each 16 bits, high byte first; then the label; then the input. The expected output of a case: the label, a colon,
//! a line feed, then the whole account.

mod counts;
mod examples;
mod generated;
mod limits;
mod refusals;
mod walks;

use crate::account::account_text;
use crate::files::{case_bytes, Filed};
use crate::load_cases::Input;
use crate::load_program::accepted_plan;

pub use generated::with_neighbours_alone;

/// The longest label, in bytes.
pub const LONGEST_LABEL: usize = 64;
/// The longest input, in bytes.
pub const LONGEST_INPUT: usize = 6_200;

/// One account.
#[derive(Clone, Debug, PartialEq, Eq)]
pub struct Case {
    pub label: String,
    /// g
    pub turnaround: u16,
    pub station: u16,
    /// The most walks of each pair that are printed.
    pub number: u16,
    pub bytes: Vec<u8>,
    /// The number stated by hand, 0 where an account is printed; none where it is left open.
    pub stated: Option<u8>,
}

impl Case {
    /// The account of a station with a turnaround; its number is the one stated for the loads of the input.
    fn asking(input: &Input, turnaround: u16, station: u16, number: u16) -> Case {
        let loads = input.turning(turnaround);
        Case {
            label: format!("{}, v {station}, k {number}", loads.label),
            turnaround,
            station,
            number,
            bytes: loads.bytes,
            stated: loads.stated,
        }
    }

    /// The case with its number stated by hand.
    fn stating(self, number: u8) -> Case {
        let stated = Some(number);
        Case { stated, ..self }
    }

    /// What the program prints.
    pub fn text(&self) -> String {
        account_text(
            self.turnaround.into(),
            &self.bytes,
            self.station.into(),
            self.number.into(),
        )
    }
}

/// Every station of an input with every number of walks; the first alone where the input is refused.
fn every_station(input: &Input, turnaround: u16, numbers: &[u16]) -> Vec<Case> {
    let plan = accepted_plan(turnaround.into(), &input.bytes);
    let stations = plan.map_or(1, |plan| plan.stations as u16);
    let stations: Vec<u16> = (0..stations).collect();
    some_stations(input, turnaround, &stations, numbers)
}

/// Some stations of an input, each with every number of walks.
fn some_stations(input: &Input, turnaround: u16, stations: &[u16], numbers: &[u16]) -> Vec<Case> {
    let of_station = |station: &u16| {
        let station = *station;
        let case = move |number: &u16| Case::asking(input, turnaround, station, *number);
        numbers.iter().map(case)
    };
    stations.iter().flat_map(of_station).collect()
}

/// All cases, in the order of the files.
pub fn all_cases() -> Vec<Case> {
    [
        examples::cases(),
        refusals::cases(),
        walks::cases(),
        counts::cases(),
        generated::cases(),
        limits::cases(),
    ]
    .concat()
}

impl Filed for Case {
    fn stdin(&self) -> Vec<u8> {
        let [label, input] = [self.label.len(), self.bytes.len()].map(|length| length as u16);
        let head = [label, input, self.turnaround, self.station, self.number];
        case_bytes(&head, &[], &self.label, &self.bytes)
    }

    fn stdout(&self) -> String {
        format!("{}:\n{}", self.label, self.text())
    }
}
