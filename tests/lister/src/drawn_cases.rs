//! Cases for a program that runs drawn loads on cases from standard input.
//!
//! A case on standard input: n, T, g and h, the length of the plan, the length of the label and a mark, each 16 bits, high
//! byte first; four lengths of 32 bits, high byte first; then the label; then the plan. The lengths are the lent entries of
//! the table of pairs and of the table of loads, the lent bytes of the records, and the lent entries of the scratch. All of
//! them hold the mark before the call, the records its low byte.
//!
//! The expected output has one line a case: the label, a colon, a space and the number; then the tables of pairs and of
//! loads, the records and the scratch after the call, each behind " |", in runs as in `reach_cases`. The value 0 is left
//! out. The calls of loads in `pair_cases` are here on the same plan and the same memory.

mod examples;
mod limits;
mod refusals;
mod too_many;

use crate::answer::number;
use crate::call_cases::{CallCase, Called};
use crate::drawing::drawn_length;
use crate::files::Filed;
use crate::lent::scratch_length;
use crate::pair_cases::{self, LabelledPlan};
use crate::partial_cases::{loads_among, plan_of};
use crate::plan::MOST_STATIONS;
use crate::reach_cases::{counts_text, runs_text};

pub use examples::{no_share, UNSHARED};

/// The longest label, in bytes.
pub const LONGEST_LABEL: usize = 64;
/// The most that the program lends, of the tables of pairs and of loads, of the records and of the scratch.
pub const LONGEST_TABLES: [usize; 4] = [320, 320, 4700, 262_200];

/// The place of the records among the lengths.
pub const RECORDS: usize = 2;

/// Drawn loads; it takes no number behind g and h.
#[derive(Clone, Copy, Debug, PartialEq, Eq)]
pub struct DrawnLoads;

impl Called for DrawnLoads {
    fn kind(self) -> Option<u16> {
        None
    }

    fn words(self) -> Vec<u16> {
        Vec::new()
    }

    fn tables(self) -> Vec<usize> {
        vec![0, 1, RECORDS, 3]
    }
}

/// One call of drawn loads; the lengths are of the two tables, of the records and of the scratch.
pub type Case = CallCase<DrawnLoads, 4>;

/// What a call answers and leaves: the number, and all that is lent.
#[derive(Clone, Debug, PartialEq, Eq)]
pub struct Outcome {
    pub number: u8,
    pub pairs: Vec<u64>,
    pub loads: Vec<u64>,
    pub records: Vec<u8>,
    pub scratch: Vec<u64>,
}

/// The named lengths.
pub fn named_lengths(stations: usize, slots: usize) -> [usize; 4] {
    let scratch = scratch_length(stations, slots);
    [stations, stations, drawn_length(stations), scratch]
}

impl LabelledPlan {
    /// Drawn loads, on memory of exactly the named lengths.
    pub fn drawn(&self) -> Case {
        let (stations, slots) = self.sizes;
        let lengths = named_lengths(stations.into(), slots.into());
        self.called(DrawnLoads, "drawn", lengths)
    }

    /// Drawn loads, with entries and bytes behind each named part.
    pub fn longer_drawn(&self) -> Case {
        self.drawn().longer([2, 1, 4, 3])
    }
}

impl Case {
    /// What the call answers and leaves.
    pub fn outcome(&self) -> Outcome {
        let [pairs, loads, records, scratch] = self.lengths;
        let marked = |length: usize| vec![u64::from(self.mark); length];
        let mut left = Outcome {
            number: 0,
            pairs: marked(pairs),
            loads: marked(loads),
            records: vec![self.mark as u8; records],
            scratch: marked(scratch),
        };
        let answer = self.counting.means().drawn_loads(
            self.input(),
            &mut left.pairs,
            &mut left.loads,
            &mut left.records,
            &mut left.scratch,
        );
        left.number = number(&answer);
        left
    }

    /// The line of an outcome, without its end.
    pub fn line(&self, outcome: &Outcome) -> String {
        let texts = [
            counts_text(&outcome.pairs),
            counts_text(&outcome.loads),
            runs_text(&outcome.records, 0),
            counts_text(&outcome.scratch),
        ];
        format!("{}: {}{}", self.label, outcome.number, texts.concat())
    }
}

impl Filed for Case {
    fn stdin(&self) -> Vec<u8> {
        self.stdin_bytes()
    }

    fn stdout(&self) -> String {
        self.line(&self.outcome()) + "\n"
    }
}

/// A call of loads, or of partial loads with every source, as a call of drawn loads. As many bytes stand behind the named records as entries behind the named pairs;
/// where n is outside its limits, the records are those of plan A.
fn of_loads(loads: &pair_cases::Case) -> Case {
    let [pairs, sums, scratch] = loads.lengths;
    let stations = usize::from(loads.stations);
    let known = (1..=MOST_STATIONS).contains(&stations);
    let stations = if known { stations } else { 5 };
    let records = drawn_length(stations) + pairs.saturating_sub(stations);
    Case {
        mark: loads.mark,
        stated: loads.stated,
        ..plan_of(loads).drawn().lent([pairs, sums, records, scratch])
    }
}

/// All cases, in the order of the files.
pub fn all_cases() -> Vec<Case> {
    let loads = loads_among(pair_cases::all_cases());
    [
        examples::cases(),
        refusals::cases(),
        too_many::cases(),
        limits::cases(),
        loads.iter().map(of_loads).collect(),
    ]
    .concat()
}
