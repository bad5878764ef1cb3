//! Foremost with turnarounds: the calls of pair with them but for drawn plans, a plan of 8,192 records, cause
//! 9 of appearances alone, and drawn plans.

use super::by_foremost;
use super::drawn::more_hops_earlier;
use super::exact::to_two;
use crate::pair_cases::{turnaround_calls, Case, LabelledPlan};
use crate::reach_cases::{exact_plans, most_turnaround, star, Exact};
use crate::turned::drawn_plans;

pub fn cases() -> Vec<Case> {
    let calls = turnaround_calls().into_iter();
    let calls = calls.filter(|case| !case.label.starts_with("drawn "));
    let mut cases: Vec<Case> = calls.filter_map(by_foremost).collect();
    cases.extend(limits());
    cases.extend(exact());
    cases.extend(drawn());
    cases
}

/// n 256, T 255 and 8,192 records.
fn limits() -> Vec<Case> {
    let label = "n 256, T 255, 8192 records, 0 meets all, g 2";
    let plan = LabelledPlan::of_records(label, (256, 255), &star()).turning(2);
    vec![plan.counted().foremost(1, 255).stating(0)]
}

/// Counts around 2^64: with turnaround 2 some of the plans whose hops are so far apart, and 2^64 with the
/// largest turnaround.
fn exact() -> Vec<Case> {
    let plans = exact_plans(64, 2);
    let of_a_station = |plan: &&Exact| plan.number != plan.of_appearances;
    let waiting = |plan: &&Exact| plan.label.contains("sent on");
    let chosen = plans.iter();
    let chosen = chosen.filter(|plan| of_a_station(plan) || waiting(plan));
    let most = most_turnaround();
    let refused = most.iter().filter(|plan| plan.number == 9);
    let to_end = |plan: &Exact| {
        let [to_end, _] = to_two(&plan.label, &plan.builder, plan.of_appearances);
        to_end.longer([3, 0, 2])
    };
    chosen.chain(refused).map(to_end).collect()
}

/// Drawn plans with turnarounds drawn: every pair of some, and of the others the pairs whose earliest path is
/// not the shortest.
fn drawn() -> Vec<Case> {
    let plans = drawn_plans(120);
    let (some, others) = plans.split_at(10);
    let every = some.iter().flat_map(LabelledPlan::every_foremost);
    every
        .chain(others.iter().flat_map(more_hops_earlier))
        .collect()
}
