//! Cases for a program that runs operations 2 and 3, reach and row, on cases from standard input.
//!
//! A case on standard input: the kind (0 reach, 1 row), n, T, g, h, the source or the station, the
//! length of the plan, the length of the label and a mark, each 16 bits, high byte first; four lengths of
//! 32 bits, high byte first; then the label; then the plan. The lengths are the lent entries of
//! reach's four tables; row's table has the second. Row takes neither g nor h; its cases have 0 in
//! these places.
//!
//! The expected output has one line a case: the label, a colon, a space, and the number. For reach
//! the lent tables follow, which hold the mark before the call, each behind " |". A run of one value
//! is written " i: x" or " i .. j: x"; 65535 hops and the count 0 are left out. For row the length
//! of the part follows and, behind " |", its entries; entry i of row's table is 3i + 1.

mod exact;
mod examples;
mod ladders;
mod limits;
mod refusals;
mod rows;
mod small;
mod stale;
mod turnarounds;

use std::fmt::Display;

use crate::answer::number;
use crate::call_cases::{CallCase, Called};
use crate::cases::{plan_bytes, Record};
use crate::files::Filed;
use crate::means::Counting;
use crate::plan::{KEPT, LEAST_TURNAROUND, NO_KEEPING, NO_TURNAROUND};
use crate::reach::{reach_named, Tables};
use crate::row::{row, row_number};
use crate::shortest::NO_WALK;

pub use exact::{exact_plans, most_turnaround, Exact};
pub use ladders::{
    falling_ladder, ladder, sent_ladder, spaced_ladder, spaced_sent_ladder, Builder, SPACED_LADDERS,
};
pub use limits::{every_slot, falling_row, rising_row, star, CORNERS};
pub use refusals::{bytes_with_cause, plan_faults};
pub use small::{cases as small_cases, further_plans, other_length, outer_stations};

/// The longest label, in bytes.
pub const LONGEST_LABEL: usize = 60;
/// The most entries that the program lends, of each table.
pub const LONGEST_TABLES: [usize; 4] = [65_600, 65_600, 320, 320];
/// The most bytes of a plan.
pub const LONGEST_PLAN: usize = 49_200;

/// The operation that a case runs, with its source or its station.
#[derive(Clone, Copy, Debug, PartialEq, Eq)]
pub enum Operation {
    Reach(u16),
    Row(u16),
}

impl Called for Operation {
    fn kind(self) -> Option<u16> {
        match self {
            Operation::Reach(_) => Some(0),
            Operation::Row(_) => Some(1),
        }
    }

    fn words(self) -> Vec<u16> {
        let (Operation::Reach(station) | Operation::Row(station)) = self;
        vec![station]
    }

    fn tables(self) -> Vec<usize> {
        match self {
            Operation::Reach(_) => vec![0, 1, 2, 3],
            Operation::Row(_) => vec![1],
        }
    }
}

/// One call of reach, or of row and its sister.
pub type Case = CallCase<Operation, 4>;

impl Case {
    /// Reach on bytes, with tables of exactly the named lengths.
    fn on_bytes(label: &str, (stations, slots): (u16, u16), bytes: Vec<u8>, source: u16) -> Case {
        Case {
            label: label.to_string(),
            operation: Operation::Reach(source),
            stations,
            slots,
            turnaround: LEAST_TURNAROUND as u16,
            keeping: KEPT as u16,
            bytes,
            mark: 999,
            lengths: reach_named(stations.into(), slots.into()),
            counting: Counting::Listed,
            stated: None,
        }
    }

    /// Reach on records, with tables of exactly the named lengths.
    fn on_records(label: &str, sizes: (u16, u16), records: &[Record], source: u16) -> Case {
        Case::on_bytes(label, sizes, plan_bytes(records), source)
    }

    /// Row on a table.
    fn on_table(label: &str, sizes: (u16, u16), station: u16, length: usize) -> Case {
        Case {
            operation: Operation::Row(station),
            turnaround: NO_TURNAROUND as u16,
            keeping: NO_KEEPING as u16,
            mark: 0,
            lengths: [0, length, 0, 0],
            ..Case::on_bytes(label, sizes, Vec::new(), station)
        }
    }

    /// Reach's number from a source, and its tables after the call.
    fn reached_from(&self, source: u16) -> (u8, Tables) {
        let mut tables = Tables::marked(self.lengths, self.mark);
        let means = self.counting.means();
        let answer = means.reach(self.input(), source.into(), tables.lend());
        (number(&answer), tables)
    }

    /// The number and the part of a station's row.
    fn row_of(&self, station: u16) -> (u8, Vec<u64>) {
        let (stations, slots) = (self.stations.into(), self.slots.into());
        let entry = |at: usize| 3 * at as u64 + 1;
        let mut table: Vec<u64> = (0..self.lengths[1]).map(entry).collect();
        let number = row_number(stations, slots, station.into(), &table);
        let part = row(stations, slots, station.into(), &mut table);
        (number, part.to_vec())
    }

    /// What the call answers and leaves.
    pub fn outcome(&self) -> Outcome {
        match self.operation {
            Operation::Reach(source) => {
                let (number, tables) = self.reached_from(source);
                Outcome::Reached(number, tables)
            }
            Operation::Row(station) => {
                let (number, part) = self.row_of(station);
                Outcome::Part(number, part)
            }
        }
    }

    /// The expected line, without its end.
    pub fn line(&self) -> String {
        let label = &self.label;
        match self.outcome() {
            Outcome::Reached(number, tables) => {
                let texts = [
                    hops_text(&tables.appearance_hops),
                    counts_text(&tables.appearance_counts),
                    hops_text(&tables.station_hops),
                    counts_text(&tables.station_counts),
                ];
                format!("{label}: {number}{}", texts.concat())
            }
            Outcome::Part(number, part) => {
                format!("{label}: {number} {}{}", part.len(), counts_text(&part))
            }
        }
    }
}

/// What a call answers and leaves: the number, and reach's tables or row's part.
#[derive(Clone, Debug, PartialEq, Eq)]
pub enum Outcome {
    Reached(u8, Tables),
    Part(u8, Vec<u64>),
}

impl Outcome {
    pub fn number(&self) -> u8 {
        let (Outcome::Reached(number, _) | Outcome::Part(number, _)) = self;
        *number
    }
}

impl Filed for Case {
    fn stdin(&self) -> Vec<u8> {
        self.stdin_bytes()
    }

    fn stdout(&self) -> String {
        self.line() + "\n"
    }
}

/// A table of 16-bit entries but those of one value.
pub fn narrow_text(table: &[u16], left_out: u16) -> String {
    let entries: Vec<u64> = table.iter().copied().map(u64::from).collect();
    runs_text(&entries, left_out.into())
}

/// A table of hops.
fn hops_text(table: &[u16]) -> String {
    narrow_text(table, NO_WALK)
}

/// A table of counts.
pub fn counts_text(table: &[u64]) -> String {
    runs_text(table, 0)
}

/// The runs of a table, but those of one value.
pub fn runs_text<N: Copy + Display + PartialEq>(table: &[N], left_out: N) -> String {
    let mut text = " |".to_string();
    let mut from = 0;
    for run in table.chunk_by(|one, other| one == other) {
        let (value, last) = (run[0], from + run.len() - 1);
        if value != left_out && from == last {
            text += &format!(" {from}: {value}");
        } else if value != left_out {
            text += &format!(" {from} .. {last}: {value}");
        }
        from = last + 1;
    }
    text
}

/// All cases, in the order of the files.
pub fn all_cases() -> Vec<Case> {
    [
        examples::cases(),
        refusals::cases(),
        rows::cases(),
        limits::cases(),
        ladders::cases(),
        exact::cases(),
        small::cases(),
        turnarounds::cases(),
        stale::cases(),
    ]
    .concat()
}
