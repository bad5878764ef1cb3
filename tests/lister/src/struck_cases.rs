//! Cases for a program that runs struck out on cases from standard input.
//!
//! A case on standard input: n, T, g and h, each 16 bits, high byte first; the position, 64 bits, high byte
//! first; the length of the plan, the length of the label and a mark, each 16 bits, high byte first; two
//! lengths of 32 bits, high byte first; then the label; then the plan. The lengths are the lent entries of
//! the table of changes and of the scratch; both hold the mark before the call.
//!
//! The expected output has one line a case: the label, a colon, a space, the number and the number of
//! pairs, 0 beside a refusal; then the lent table of changes and the scratch after the call, each behind
//! " |", in runs as in `reach_cases`. The value 0 is left out; a change below 0 has a minus sign.

mod examples;
mod limits;
mod refusals;
mod small;
mod stale;
mod too_many;

use crate::answer::{beside, number};
use crate::call_cases::{parts, CallCase, Called};
use crate::files::Filed;
use crate::lent::scratch_length;
use crate::pair_cases::LabelledPlan;
use crate::reach_cases::{counts_text, runs_text};

pub use examples::{StruckPlan, FAR, STRUCK_PLANS};
pub use small::small_with_terms;
pub use too_many::{ladders as struck_ladders, StruckLadder};

/// The longest label, in bytes.
pub const LONGEST_LABEL: usize = 80;
/// The most entries that the program lends, of the table of changes and of the scratch.
pub const LONGEST_TABLES: [usize; 2] = [320, 262_200];

/// The position of the contact that a case strikes out.
#[derive(Clone, Copy, Debug, PartialEq, Eq)]
pub struct Position(pub u64);

impl Called for Position {
    fn kind(self) -> Option<u16> {
        None
    }

    fn words(self) -> Vec<u16> {
        parts(self.0)
    }

    fn tables(self) -> Vec<usize> {
        vec![0, 1]
    }
}

/// One call of struck out; the lengths are of the table of changes and of the scratch.
pub type Case = CallCase<Position, 2>;

/// What a call answers and leaves: the number, the pairs beside it, the table of changes and the scratch.
#[derive(Clone, Debug, PartialEq, Eq)]
pub struct Outcome {
    pub number: u8,
    pub pairs: u64,
    pub changes: Vec<i64>,
    pub scratch: Vec<u64>,
}

impl LabelledPlan {
    /// Struck out at a position, on memory of exactly the named lengths.
    pub fn struck(&self, position: u64) -> Case {
        let (stations, slots) = (self.sizes.0.into(), self.sizes.1.into());
        let lengths = [stations, scratch_length(stations, slots)];
        let words = format!("position {position}");
        self.called(Position(position), &words, lengths)
    }

    /// Struck out at a position, with entries behind each named part.
    pub fn longer_struck(&self, position: u64) -> Case {
        self.struck(position).longer([2, 3])
    }

    /// Struck out at every position and at one too late, where neither of the two plans has cause 9.
    pub fn every_struck(&self) -> Vec<Case> {
        let records = u64::from(self.records());
        let stated = |position: u64| {
            let number = if position < records { 0 } else { 17 };
            self.longer_struck(position).stating(number)
        };
        (0..=records).map(stated).collect()
    }
}

impl Case {
    /// What the call answers and leaves.
    pub fn outcome(&self) -> Outcome {
        let [changes, scratch] = self.lengths;
        let mut changes = vec![i64::from(self.mark); changes];
        let mut scratch = vec![u64::from(self.mark); scratch];
        let Position(position) = self.operation;
        let means = self.counting.means();
        let answer = means.struck_out(self.input(), position as usize, &mut changes, &mut scratch);
        Outcome {
            number: number(&answer),
            pairs: beside(&answer),
            changes,
            scratch,
        }
    }

    /// The line of an outcome, without its end.
    pub fn line(&self, outcome: &Outcome) -> String {
        let (label, number, pairs) = (&self.label, outcome.number, outcome.pairs);
        let changes = runs_text(&outcome.changes, 0);
        let scratch = counts_text(&outcome.scratch);
        format!("{label}: {number} {pairs}{changes}{scratch}")
    }
}

impl Filed for Case {
    fn stdin(&self) -> Vec<u8> {
        self.stdin_bytes()
    }

    fn stdout(&self) -> String {
        self.line(&self.outcome()) + "\n"
    }
}

/// All cases, in the order of the files.
pub fn all_cases() -> Vec<Case> {
    [
        examples::cases(),
        refusals::cases(),
        too_many::cases(),
        limits::cases(),
        small::cases(),
        stale::cases(),
    ]
    .concat()
}
