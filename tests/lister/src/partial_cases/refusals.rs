//! 13 alone and with every other number, 12 and 13 with each other, and 8 and 9 where k is at most n.

use super::examples::plan_a;
use crate::pair_cases::{Case, LabelledPlan};
use crate::reach_cases::sent_ladder;
use crate::turned::WRONG_TURNAROUNDS;

pub fn cases() -> Vec<Case> {
    [
        plan_before_sources(),
        turnaround_before_sources(),
        sources_before_lengths(),
        sources_before_too_many(),
    ]
    .concat()
}

/// Numbers of sources above the 5 stations of plan A.
const ABOVE: [u64; 4] = [6, 257, 65535, u64::MAX];

/// Causes 1 to 5 each with 13, with 12 and 13, and with 12, 13 and 8.
fn plan_before_sources() -> Vec<Case> {
    let mut cases = Vec::new();
    for cause in 1..=5 {
        for sources in ABOVE {
            let on = |before: &str| {
                let plan = plan_a(&format!("{cause} before {before}"));
                plan.longer_partial(sources).faulty(cause)
            };
            cases.push(on("13"));
            cases.push(on("12 and 13").turning(17));
            cases.push(on("12, 13 and 8").turning(0).lent([4, 4, 99]));
        }
    }
    let mut few = plan_a("1 for no station").longer_partial(0).stating(1);
    few.stations = 0;
    let mut none = plan_a("1 for no station before 13").longer_partial(1);
    none.stations = 0;
    cases.extend([few, none.stating(1)]);
    cases
}

/// 12 alone and with 13: whatever k is.
fn turnaround_before_sources() -> Vec<Case> {
    let mut cases = Vec::new();
    for turnaround in WRONG_TURNAROUNDS {
        for sources in [0, 3, 5, 6, u64::MAX] {
            let plan = plan_a(&format!("12 for g {turnaround}")).turning(turnaround);
            cases.push(plan.longer_partial(sources).stating(12));
        }
    }
    cases
}

/// 13 with 8 of each table and of all; the same tables with k up to n are 8, k = 0 too.
fn sources_before_lengths() -> Vec<Case> {
    let mut cases = Vec::new();
    for short in [&[0][..], &[1], &[2], &[0, 1, 2]] {
        for (sources, number) in [(0, 8), (2, 8), (5, 8), (6, 13), (65536, 13), (u64::MAX, 13)] {
            let plan = plan_a(&format!("{number} with short tables {short:?}"));
            let mut case = plan.longer_partial(sources);
            for table in short {
                case.lengths[*table] = plan.partial(sources).lengths[*table] - 1;
            }
            cases.push(case.stating(number));
        }
    }
    let empty = plan_a("no table at all");
    for (sources, number) in [(0, 8), (5, 8), (6, 13)] {
        cases.push(empty.partial(sources).lent([0; 3]).stating(number));
    }
    cases
}

/// A ladder of 65 layers: 13, 12 and 8 before the 9 of its source, and k = 0 without it.
fn sources_before_too_many() -> Vec<Case> {
    let plan = |label: &str| LabelledPlan::built(label, &sent_ladder(65, 2));
    let mut cases = Vec::new();
    for sources in [132, 65535, u64::MAX] {
        cases.push(plan("13 before 9").longer_partial(sources).stating(13));
        let turned = plan("12 before 13 and 9").turning(17);
        cases.push(turned.longer_partial(sources).stating(12));
    }
    for table in 0..3 {
        let case = plan(&format!("8 before 9, length {table}")).partial(1);
        let short = case.lengths[table] - 1;
        cases.push(case.with_length(table, short).stating(8));
    }
    cases
}
