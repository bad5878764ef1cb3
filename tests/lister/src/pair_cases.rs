//! Cases for a program that runs operations 4 to 6, pair, loads and busiest, on cases from standard
//! input.
//!
//! A case on standard input: the kind (0 pair, 1 loads, 2 busiest), n, T, g, h, the source, the
//! destination, the length of the plan, the length of the label and a mark, each 16 bits, high byte
//! first; three lengths of 32 bits, high byte first; then the label; then the plan. The lengths are
//! the lent entries of the first table (through counts or pairs), of the second (loads) and of the
//! scratch; all of them hold the mark before the call.
//!
//! The expected output has one line a case: the label, a colon, a space, and the number. For pair
//! hops and count follow, for busiest the station, zeros beside a refusal. Then come the lent tables
//! after the call and the scratch, each behind " |", in runs as in `reach_cases`; the value 0 is left
//! out.
//!
//! `foremost_cases` has cases of the same kind for foremost, most of them on the plans and the memory
//! of pair's; `partial_cases` for partial loads, many of them on those of loads, and `drawn_cases` for drawn loads, most of
//! them on those.

mod exact;
mod examples;
mod ladders;
mod limits;
mod refusals;
mod shares;
mod small;
mod stale;
mod ties;
mod turnarounds;

use std::mem;

use crate::answer::{beside, number};
use crate::call_cases::{parts, CallCase, Called};
use crate::cases::{plan_bytes, Record};
use crate::files::Filed;
use crate::foremost::ForemostValues;
use crate::lent::scratch_length;
use crate::means::Counting;
use crate::plan::{KEPT, LEAST_TURNAROUND};
use crate::plans::{pairs, Owned};
use crate::reach_cases::{counts_text, Builder};

pub use ladders::cases as ladder_cases;
pub use limits::{cases as limit_cases, counted_where_large, dense, BLOCKS};
pub use refusals::{cases as refusal_cases, faulty_plans, near_lengths};
pub use shares::{cases as share_cases, mixed_ladders, MixedLadder};
pub use small::{cases as small_cases, checked_plans, small_plans};
pub use ties::{TiedPlan, TIED_PLANS};
pub use turnarounds::{calls as turnaround_calls, TURNED_BLOCKS};

/// The longest label, in bytes.
pub const LONGEST_LABEL: usize = 64;
/// The most entries that the program lends, of each table and of the scratch.
pub const LONGEST_TABLES: [usize; 3] = [320, 320, 262_200];

/// The operation that a case runs; pair and foremost have source and destination, partial loads has k.
/// Foremost and partial loads have a program each of their own.
#[derive(Clone, Copy, Debug, PartialEq, Eq)]
pub enum Operation {
    Pair(u16, u16),
    Loads,
    Busiest,
    Foremost(u16, u16),
    PartialLoads(u64),
}

impl Operation {
    /// The end of a label.
    pub fn text(self) -> String {
        match self {
            Operation::Pair(source, destination) | Operation::Foremost(source, destination) => {
                format!("{source} to {destination}")
            }
            Operation::Loads => "loads".to_string(),
            Operation::Busiest => "busiest".to_string(),
            Operation::PartialLoads(sources) => format!("k {sources}"),
        }
    }

    /// The named lengths; 0 for a table that the operation does not have.
    fn named(self, (stations, slots): (u16, u16)) -> [usize; 3] {
        let (stations, slots) = (stations.into(), slots.into());
        let scratch = scratch_length(stations, slots);
        match self {
            Operation::Pair(..) | Operation::Foremost(..) => [stations, 0, scratch],
            Operation::Loads | Operation::PartialLoads(_) => [stations, stations, scratch],
            Operation::Busiest => [0, 0, scratch],
        }
    }
}

impl Called for Operation {
    fn kind(self) -> Option<u16> {
        match self {
            Operation::Pair(..) => Some(0),
            Operation::Loads => Some(1),
            Operation::Busiest => Some(2),
            Operation::Foremost(..) | Operation::PartialLoads(_) => None,
        }
    }

    fn has_keeping(self) -> bool {
        !matches!(self, Operation::Foremost(..))
    }

    fn words(self) -> Vec<u16> {
        match self {
            Operation::Pair(source, destination) | Operation::Foremost(source, destination) => {
                vec![source, destination]
            }
            Operation::Loads | Operation::Busiest => vec![0, 0],
            Operation::PartialLoads(sources) => parts(sources),
        }
    }

    /// The scratch is the last.
    fn tables(self) -> Vec<usize> {
        match self {
            Operation::Pair(..) | Operation::Foremost(..) => vec![0, 2],
            Operation::Loads | Operation::PartialLoads(_) => vec![0, 1, 2],
            Operation::Busiest => vec![2],
        }
    }
}

/// One call of pair, of loads, of busiest, of foremost or of partial loads; the lengths are of the two
/// tables and of the scratch.
pub type Case = CallCase<Operation, 3>;

/// What a call answers and leaves: the number, the values beside it, the lent tables and the scratch.
#[derive(Clone, Debug, PartialEq, Eq)]
pub struct Outcome {
    pub number: u8,
    pub values: Vec<u64>,
    pub buffers: Vec<Vec<u64>>,
}

impl Case {
    /// What the call answers and leaves.
    pub fn outcome(&self) -> Outcome {
        let lent = |length: usize| vec![u64::from(self.mark); length];
        let [mut first, mut second, mut scratch] = self.lengths.map(lent);
        let (input, means) = (self.input(), self.counting.means());
        let (number, values) = match self.operation {
            Operation::Pair(source, destination) => {
                let ends = (source.into(), destination.into());
                let answer = means.pair(input, ends, &mut first, &mut scratch);
                let values = beside(&answer);
                (number(&answer), vec![values.hops.into(), values.count])
            }
            Operation::Loads => {
                let answer = means.loads(input, &mut first, &mut second, &mut scratch);
                (number(&answer), Vec::new())
            }
            Operation::Busiest => {
                let answer = means.busiest(input, &mut scratch);
                (number(&answer), vec![beside(&answer) as u64])
            }
            Operation::Foremost(source, destination) => {
                let ends = (source.into(), destination.into());
                let answer = means.foremost(input, ends, &mut first, &mut scratch);
                let ForemostValues { slot, hops, count } = beside(&answer);
                (number(&answer), vec![slot.into(), hops.into(), count])
            }
            Operation::PartialLoads(sources) => {
                let sources = sources as usize;
                let answer =
                    means.partial_loads(input, sources, &mut first, &mut second, &mut scratch);
                (number(&answer), Vec::new())
            }
        };
        let mut lent = [first, second, scratch];
        let tables = self.operation.tables().into_iter();
        Outcome {
            number,
            values,
            buffers: tables.map(|table| mem::take(&mut lent[table])).collect(),
        }
    }

    /// The line of an outcome, without its end.
    pub fn line(&self, outcome: &Outcome) -> String {
        let mut line = format!("{}: {}", self.label, outcome.number);
        for value in &outcome.values {
            line += &format!(" {value}");
        }
        for buffer in &outcome.buffers {
            line += &counts_text(buffer);
        }
        line
    }
}

impl Filed for Case {
    fn stdin(&self) -> Vec<u8> {
        self.stdin_bytes()
    }

    fn stdout(&self) -> String {
        self.line(&self.outcome()) + "\n"
    }
}

/// A plan with a label, for cases of each operation.
#[derive(Clone, Debug)]
pub struct LabelledPlan {
    pub label: String,
    /// n and T
    pub sizes: (u16, u16),
    /// g
    pub turnaround: u16,
    /// h
    pub keeping: u16,
    pub bytes: Vec<u8>,
    pub counting: Counting,
}

impl LabelledPlan {
    /// A plan whose walks are listed.
    pub fn new(label: &str, sizes: (u16, u16), bytes: Vec<u8>) -> LabelledPlan {
        LabelledPlan {
            label: label.to_string(),
            sizes,
            turnaround: LEAST_TURNAROUND as u16,
            keeping: KEPT as u16,
            bytes,
            counting: Counting::Listed,
        }
    }

    /// A plan of records, whose walks are listed.
    pub fn of_records(label: &str, sizes: (u16, u16), records: &[Record]) -> LabelledPlan {
        LabelledPlan::new(label, sizes, plan_bytes(records))
    }

    /// A plan with too many walks to be listed.
    pub fn built(label: &str, builder: &Builder) -> LabelledPlan {
        let plan = LabelledPlan::new(label, builder.sizes(), builder.bytes());
        plan.turning(builder.turnaround() as u16).counted()
    }

    /// The plan with another turnaround.
    pub fn turning(self, turnaround: u16) -> LabelledPlan {
        LabelledPlan { turnaround, ..self }
    }

    /// The plan of units that drop a reading so many slots after hearing it.
    pub fn keeping_for(self, keeping: u16) -> LabelledPlan {
        LabelledPlan { keeping, ..self }
    }

    /// The plan without its label.
    pub fn owned(&self) -> Owned {
        let (stations, slots) = self.sizes;
        Owned {
            bytes: self.bytes.clone(),
            stations: stations.into(),
            slots: slots.into(),
            turnaround: self.turnaround.into(),
            keeping: self.keeping.into(),
        }
    }

    /// The plan with its walks counted and not listed.
    pub fn counted(self) -> LabelledPlan {
        LabelledPlan {
            counting: Counting::Fast,
            ..self
        }
    }

    /// A case of an operation, with words behind the label, on memory of some lengths.
    pub fn called<O, const TABLES: usize>(
        &self,
        operation: O,
        words: &str,
        lengths: [usize; TABLES],
    ) -> CallCase<O, TABLES> {
        let (stations, slots) = self.sizes;
        CallCase {
            label: format!("{}, {words}", self.label),
            operation,
            stations,
            slots,
            turnaround: self.turnaround,
            keeping: self.keeping,
            bytes: self.bytes.clone(),
            mark: 999,
            lengths,
            counting: self.counting,
            stated: None,
        }
    }

    /// A case of an operation, on memory of exactly the named lengths.
    pub fn case(&self, operation: Operation) -> Case {
        self.called(operation, &operation.text(), operation.named(self.sizes))
    }

    fn pair(&self, source: u16, destination: u16) -> Case {
        self.case(Operation::Pair(source, destination))
    }

    pub fn foremost(&self, source: u16, destination: u16) -> Case {
        self.case(Operation::Foremost(source, destination))
    }

    fn loads(&self) -> Case {
        self.case(Operation::Loads)
    }

    fn busiest(&self) -> Case {
        self.case(Operation::Busiest)
    }

    /// Every pair of two different stations.
    fn every_pair(&self) -> Vec<Case> {
        let pair =
            |(source, destination): (usize, usize)| self.pair(source as u16, destination as u16);
        pairs(self.sizes.0.into()).map(pair).collect()
    }

    /// Every pair, loads and busiest.
    fn every_call(&self) -> Vec<Case> {
        let mut cases = self.every_pair();
        cases.extend([self.loads(), self.busiest()]);
        cases
    }
}

/// All cases, in the order of the files.
pub fn all_cases() -> Vec<Case> {
    [
        examples::cases(),
        ties::cases(),
        refusals::cases(),
        limits::cases(),
        ladders::cases(),
        exact::cases(),
        shares::cases(),
        small::cases(),
        turnarounds::cases(),
        stale::cases(),
    ]
    .concat()
}
