//! The verdict at n 256 and T 255: a path of 255 hops, the last position of 8,192 records, and the largest scratch.

use super::Case;
use crate::cases::Record;
use crate::lists::{prefixes, with_walks_changed};
use crate::pair_cases::LabelledPlan;
use crate::reach_cases::{rising_row, CORNERS};
use crate::turned::spaced_row;

pub fn cases() -> Vec<Case> {
    let cases = [one_path(), last_position()].concat();
    let mut cases: Vec<Case> = cases.into_iter().map(|case| case.stating(0)).collect();
    cases.extend(lengths());
    cases
}

/// A plan at the limits.
fn on(label: &str, turnaround: u16, records: &[Record]) -> LabelledPlan {
    let plan = LabelledPlan::of_records(&format!("n 256, T 255, {label}"), (256, 255), records);
    plan.turning(turnaround)
}

/// Rows of stations with one path from end to end: some prefixes, one entry more, and the path twice.
fn one_path() -> Vec<Case> {
    let row = on("row", 1, &rising_row());
    let spaced = on("row, g 16", 16, &spaced_row(16));
    let mut cases = Vec::new();
    for (plan, last) in [(row, 255), (spaced, 16)] {
        let ends = (0, last);
        let paths = plan.paths(ends);
        let all = prefixes(&paths.concat()).into_iter().rev();
        let mut lists: Vec<_> = all.take(3).collect();
        lists.extend(with_walks_changed(&paths));
        let mut more = paths.concat();
        more.push(plan.records());
        lists.push(("one entry more".to_string(), more));
        cases.extend(lists.into_iter().map(|list| plan.judged(ends, list)));
        cases.push(plan.judged((last, 0), ("back".to_string(), Vec::new())));
    }
    cases
}

/// 8,192 records, of which the last alone is heard by the last station.
fn last_position() -> Vec<Case> {
    let first = |slot: u16| (0..64).flat_map(move |a| (0..64).map(move |b| (slot, a, b)));
    let records = (1..=3).flat_map(first).filter(|(_, a, b)| a != b);
    let mut records: Vec<Record> = records.take(8191).collect();
    records.push((255, 5, 255));
    let plan = on("8192 records", 1, &records).counted();
    assert_eq!(plan.records(), 8192);
    let all = [4, 8191, 4036, 8191, 8068, 8191];
    [
        ("all", all),
        ("no position", [4, 8191, 4036, 8191, 8068, 8192]),
    ]
    .map(|(words, list)| plan.judged((0, 255), (words.to_string(), list.to_vec())))
    .to_vec()
}

/// The largest scratch: exactly long enough, one entry too short, and longer.
fn lengths() -> Vec<Case> {
    let plan = on("corners", 1, &CORNERS);
    let list = plan.paths((0, 254)).concat();
    let case = |words: &str| plan.judged((0, 254), (words.to_string(), list.clone()));
    let exact = case("all");
    let scratch = exact.call.lengths[0];
    vec![
        exact.stating(0),
        case("scratch one short").lent(scratch - 1).stating(8),
        case("longer").marked(5, 56).stating(0),
    ]
}
