//! Cases for a program that runs the verdict on cases from standard input.
//!
//! A case on standard input: n, T, g, h, the source, the destination, the length of the plan, the length
//! of the label and a mark, each 16 bits, high byte first; the lent entries of the scratch, 32 bits,
//! high byte first; the label; the plan; then the number of entries of the list, and these, each 16
//! bits, high byte first. The scratch holds the mark before the call.
//!
//! The expected output has one line a case: the label, a colon, a space, the number and, where it is 0,
//! the word of the verdict; then, behind " |", the lent scratch after the call, in runs as in
//! `reach_cases`; the value 0 is left out.

mod examples;
mod ladders;
mod limits;
mod long;
mod refusals;
mod small;
mod stale;

use crate::answer::number;
use crate::call_cases::{CallCase, Called};
use crate::files::{words_bytes, Filed};
use crate::lent::scratch_length;
use crate::lists::{near, NearList};
use crate::pair_cases::LabelledPlan;
use crate::plan::{Ends, RECORD_BYTES};
use crate::reach_cases::counts_text;
use crate::verdicts::Verdict;

/// The longest label, in bytes.
pub const LONGEST_LABEL: usize = 80;
/// The most entries of a list that the program lends.
pub const LONGEST_LIST: usize = 65_535;
/// The most entries of the scratch that the program lends.
pub const LONGEST_SCRATCH: usize = 262_200;

/// The source and the destination of a call.
#[derive(Clone, Copy, Debug, PartialEq, Eq)]
pub struct Judged {
    pub source: u16,
    pub destination: u16,
}

impl Called for Judged {
    fn kind(self) -> Option<u16> {
        None
    }

    fn words(self) -> Vec<u16> {
        vec![self.source, self.destination]
    }

    fn tables(self) -> Vec<usize> {
        vec![0]
    }
}

/// The call of a case, without the list.
type Call = CallCase<Judged, 1>;

/// One call of the verdict.
#[derive(Clone, Debug, PartialEq, Eq)]
pub struct Case {
    pub call: Call,
    pub list: Vec<u16>,
}

/// What a call answers and leaves: the number, the verdict where that is 0, and the scratch.
#[derive(Clone, Debug, PartialEq, Eq)]
pub struct Outcome {
    pub number: u8,
    pub verdict: Option<Verdict>,
    pub scratch: Vec<u64>,
}

impl LabelledPlan {
    /// A case of a pair and a list, on a scratch of exactly the named length.
    fn judged(&self, (source, destination): (u16, u16), (words, list): NearList) -> Case {
        let (stations, slots) = self.sizes;
        let lengths = [scratch_length(stations.into(), slots.into())];
        let operation = Judged {
            source,
            destination,
        };
        let words = format!("{source} to {destination}, {words}");
        let call = self.called(operation, &words, lengths);
        Case { call, list }
    }

    /// The positions of a pair's shortest paths, listed.
    fn paths(&self, (source, destination): (u16, u16)) -> Vec<Vec<u16>> {
        self.owned().list(source.into(), destination.into())
    }

    /// The number of records.
    pub fn records(&self) -> u16 {
        (self.bytes.len() / RECORD_BYTES) as u16
    }

    /// A case of a pair for each list near its complete one.
    fn near(&self, ends: (u16, u16)) -> Vec<Case> {
        let lists = near(&self.paths(ends), self.records());
        lists
            .into_iter()
            .map(|list| self.judged(ends, list))
            .collect()
    }
}

impl Case {
    /// The case with another call.
    fn on(self, change: impl FnOnce(Call) -> Call) -> Case {
        let call = change(self.call);
        Case { call, ..self }
    }

    /// The case with its number stated by hand.
    fn stating(self, number: u8) -> Case {
        self.on(|call| call.stating(number))
    }

    /// The case with another mark, and with so many entries behind the named ones of the scratch.
    fn marked(self, mark: u16, longer: usize) -> Case {
        self.on(|call| call.marked(mark).longer([longer]))
    }

    /// The case with another length of the scratch.
    fn lent(self, scratch: usize) -> Case {
        self.on(|call| call.lent([scratch]))
    }

    pub fn ends(&self) -> Ends {
        let Judged {
            source,
            destination,
        } = self.call.operation;
        (source.into(), destination.into())
    }

    /// What the call answers and leaves.
    pub fn outcome(&self) -> Outcome {
        let call = &self.call;
        let mut scratch = vec![call.mark.into(); call.lengths[0]];
        let means = call.counting.means();
        let answer = means.verdict(call.input(), self.ends(), &self.list, &mut scratch);
        Outcome {
            number: number(&answer),
            verdict: answer.ok(),
            scratch,
        }
    }

    /// The line of an outcome, without its end.
    pub fn line(&self, outcome: &Outcome) -> String {
        let (label, number) = (&self.call.label, outcome.number);
        let verdict = outcome
            .verdict
            .map(|verdict| format!(" {}", verdict.word()));
        let verdict = verdict.unwrap_or_default();
        format!(
            "{label}: {number}{verdict}{}",
            counts_text(&outcome.scratch)
        )
    }
}

impl Filed for Case {
    fn stdin(&self) -> Vec<u8> {
        let mut bytes = self.call.stdin_bytes();
        bytes.extend(words_bytes([self.list.len() as u16]));
        bytes.extend(words_bytes(self.list.iter().copied()));
        bytes
    }

    fn stdout(&self) -> String {
        self.line(&self.outcome()) + "\n"
    }
}

/// All cases, in the order of the files.
pub fn all_cases() -> Vec<Case> {
    [
        examples::cases(),
        refusals::cases(),
        limits::cases(),
        ladders::cases(),
        long::cases(),
        small::cases(),
        stale::cases(),
    ]
    .concat()
}
