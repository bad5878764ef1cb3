//! Cases for a program that runs partial loads on cases from standard input.
//!
//! A case on standard input: n, T, g and h, each 16 bits, high byte first; k, 64 bits, high byte first; the
//! length of the plan, the length of the label and a mark, each 16 bits, high byte first; three lengths of
//! 32 bits, high byte first; then the label; then the plan. The lengths are the lent entries of the table
//! of pairs, of the table of loads and of the scratch; all of them hold the mark before the call.
//!
//! The expected output has one line a case: the label, a colon, a space and the number; then the lent
//! tables and the scratch after the call as in `pair_cases`. The refusals, the limits, the ladders and the
//! shares of loads in `pair_cases` are here with k = n, on the same plan and the same memory.

mod examples;
mod limits;
mod refusals;
mod small;
mod stale;
mod too_many;

pub use examples::plans_by_hand;
pub use limits::loads_of_blocks;
pub use too_many::cases as too_many_cases;

use crate::pair_cases::{
    ladder_cases, limit_cases, refusal_cases, share_cases, Case, LabelledPlan, Operation,
};

impl LabelledPlan {
    /// Partial loads of so many sources.
    pub fn partial(&self, sources: u64) -> Case {
        self.case(Operation::PartialLoads(sources))
    }

    /// Partial loads of so many sources, with entries behind each named part.
    pub fn longer_partial(&self, sources: u64) -> Case {
        self.partial(sources).longer([2, 1, 3])
    }

    /// Partial loads of every number of sources and of one too many, on a plan that loads accepts.
    pub fn every_partial(&self) -> Vec<Case> {
        let stations = u64::from(self.sizes.0);
        let stated = |sources: u64| {
            let number = if sources > stations { 13 } else { 0 };
            self.longer_partial(sources).stating(number)
        };
        (0..=stations + 1).map(stated).collect()
    }
}

/// The call of loads as a call of partial loads of so many sources.
fn of_sources(loads: &Case, sources: u64) -> Case {
    let operation = Operation::PartialLoads(sources);
    let words = format!(", {}", operation.text());
    Case {
        label: loads.label.replacen(", loads", &words, 1),
        operation,
        ..loads.clone()
    }
}

/// The plan of a call, without the operation's words in the label.
pub fn plan_of(case: &Case) -> LabelledPlan {
    let words = format!(", {}", case.operation.text());
    LabelledPlan {
        label: case.label.replacen(&words, "", 1),
        sizes: (case.stations, case.slots),
        turnaround: case.turnaround,
        keeping: case.keeping,
        bytes: case.bytes.clone(),
        counting: case.counting,
    }
}

/// The calls of loads among cases.
pub fn loads_among(mut cases: Vec<Case>) -> Vec<Case> {
    cases.retain(|case| case.operation == Operation::Loads);
    cases
}

/// Calls of loads in pair-cases as calls of partial loads with every station a source.
fn calls_of_loads() -> Vec<Case> {
    let cases = [
        refusal_cases(),
        limit_cases(),
        ladder_cases(),
        share_cases(),
    ];
    let loads = loads_among(cases.concat()).into_iter();
    loads
        .map(|case| of_sources(&case, case.stations.into()))
        .collect()
}

/// All cases, in the order of the files.
pub fn all_cases() -> Vec<Case> {
    [
        examples::cases(),
        refusals::cases(),
        too_many::cases(),
        limits::cases(),
        calls_of_loads(),
        small::cases(),
        stale::cases(),
    ]
    .concat()
}
