//! Cases for a program that runs through set on cases from standard input.
//!
//! A case on standard input: n, T, g, h, the source, the destination, the length of the plan, the length
//! of the label, a mark and the length of the set, each 16 bits, high byte first; the lent entries of
//! the scratch, 32 bits, high byte first; then the label, the plan and the set. The scratch holds the
//! mark before the call.
//!
//! The expected output has one line a case: the label, a colon, a space, the number, and the count, 0
//! beside a refusal; then, behind " |", the lent scratch after the call, in runs as in `reach_cases`;
//! the value 0 is left out.

mod examples;
mod ladders;
mod limits;
mod refusals;
mod small;
mod stale;
mod turnarounds;

use crate::answer::{beside, number};
use crate::files::{case_bytes, Filed};
use crate::lent::scratch_length;
use crate::means::Counting;
use crate::pair_cases::LabelledPlan;
use crate::plan::{Ends, PlanInput};
use crate::reach_cases::counts_text;
use crate::sets::set_of;

pub use refusals::UNKNOWN_PAIRS;

/// The longest label, in bytes.
pub const LONGEST_LABEL: usize = 80;
/// The most bytes of a set that the program lends.
pub const LONGEST_SET: usize = 320;
/// The most entries of the scratch that the program lends.
pub const LONGEST_SCRATCH: usize = 262_200;

/// One call of through set.
#[derive(Clone, Debug, PartialEq, Eq)]
pub struct Case {
    pub label: String,
    /// n
    pub stations: u16,
    /// T
    pub slots: u16,
    /// g
    pub turnaround: u16,
    /// h
    pub keeping: u16,
    pub bytes: Vec<u8>,
    pub source: u16,
    pub destination: u16,
    pub set: Vec<u8>,
    /// What the scratch holds before the call.
    pub mark: u16,
    /// The lent entries of the scratch.
    pub scratch: usize,
    pub counting: Counting,
    /// The number stated by hand; none for a generated case.
    pub stated: Option<u8>,
}

/// What a call answers and leaves: the number, the count beside it and the scratch.
#[derive(Clone, Debug, PartialEq, Eq)]
pub struct Outcome {
    pub number: u8,
    pub count: u64,
    pub scratch: Vec<u64>,
}

/// The members of a set, for a label.
fn members_text(stations: u16, members: &[usize]) -> String {
    match members.len() {
        0 => "empty set".to_string(),
        all if all == usize::from(stations) => "set of all".to_string(),
        1..=8 => {
            let members = members.iter().map(|member| format!(" {member}"));
            format!("set{}", members.collect::<String>())
        }
        more => format!("set of {more}"),
    }
}

impl LabelledPlan {
    /// A case of a pair and members, on a set and a scratch of exactly the named lengths.
    fn through(&self, (source, destination): (u16, u16), members: &[usize]) -> Case {
        let (stations, slots) = self.sizes;
        let set = members_text(stations, members);
        Case {
            label: format!("{}, {source} to {destination}, {set}", self.label),
            stations,
            slots,
            turnaround: self.turnaround,
            keeping: self.keeping,
            bytes: self.bytes.clone(),
            source,
            destination,
            set: set_of(stations.into(), members),
            mark: 999,
            scratch: scratch_length(stations.into(), slots.into()),
            counting: self.counting,
            stated: None,
        }
    }
}

impl Case {
    /// The case with words behind its label.
    fn labelled(mut self, words: &str) -> Case {
        self.label += words;
        self
    }

    /// The case with another set.
    fn of_set(self, set: Vec<u8>) -> Case {
        Case { set, ..self }
    }

    /// The case with bytes behind the set.
    fn behind(mut self, bytes: &[u8]) -> Case {
        self.set.extend(bytes);
        self
    }

    /// The case with another turnaround.
    pub fn turning(self, turnaround: u16) -> Case {
        Case { turnaround, ..self }
    }

    /// The case with another mark, and with so many entries behind the named ones of the scratch.
    fn marked(self, mark: u16, longer: usize) -> Case {
        let scratch = self.scratch + longer;
        Case {
            mark,
            scratch,
            ..self
        }
    }

    /// The case with another length of the scratch.
    fn lent(self, scratch: usize) -> Case {
        Case { scratch, ..self }
    }

    /// The case with its number stated by hand.
    fn stating(self, number: u8) -> Case {
        Case {
            stated: Some(number),
            ..self
        }
    }

    pub fn ends(&self) -> Ends {
        (self.source.into(), self.destination.into())
    }

    pub fn input(&self) -> PlanInput<'_> {
        PlanInput {
            bytes: &self.bytes,
            stations: self.stations.into(),
            slots: self.slots.into(),
            turnaround: self.turnaround.into(),
            keeping: self.keeping.into(),
        }
    }

    /// What the call answers and leaves.
    pub fn outcome(&self) -> Outcome {
        let mut scratch = vec![self.mark.into(); self.scratch];
        let means = self.counting.means();
        let answer = means.through_set(self.input(), self.ends(), &self.set, &mut scratch);
        Outcome {
            number: number(&answer),
            count: beside(&answer),
            scratch,
        }
    }

    /// The line of an outcome, without its end.
    pub fn line(&self, outcome: &Outcome) -> String {
        let Outcome {
            number,
            count,
            scratch,
        } = outcome;
        format!("{}: {number} {count}{}", self.label, counts_text(scratch))
    }
}

impl Filed for Case {
    fn stdin(&self) -> Vec<u8> {
        let [plan, label, set] =
            [self.bytes.len(), self.label.len(), self.set.len()].map(|length| length as u16);
        let sizes = [self.stations, self.slots, self.turnaround, self.keeping];
        let ends = [self.source, self.destination];
        let words = [&sizes[..], &ends, &[plan, label, self.mark, set]].concat();
        let mut bytes = case_bytes(&words, &[self.scratch], &self.label, &self.bytes);
        bytes.extend(&self.set);
        bytes
    }

    fn stdout(&self) -> String {
        self.line(&self.outcome()) + "\n"
    }
}

/// All sets of stations below a number.
pub fn all_sets(stations: usize) -> impl Iterator<Item = Vec<usize>> {
    let members = move |bits: usize| {
        let chosen = move |station: &usize| bits >> station & 1 == 1;
        (0..stations).filter(chosen).collect()
    };
    (0..1 << stations).map(members)
}

/// All cases, in the order of the files.
pub fn all_cases() -> Vec<Case> {
    [
        examples::cases(),
        refusals::cases(),
        limits::cases(),
        ladders::cases(),
        small::cases(),
        turnarounds::cases(),
        stale::cases(),
    ]
    .concat()
}
