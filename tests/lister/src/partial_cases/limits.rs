//! Partial loads at n 256 and T 255, with few records and with 8,192; and sizes whose stations do not divide
//! evenly into blocks.

use super::{loads_among, of_sources};
use crate::cases::Record;
use crate::pair_cases::{dense, limit_cases, turnaround_calls, Case, LabelledPlan};
use crate::reach_cases::{falling_row, rising_row, star, CORNERS};
use crate::turned::spaced_row;

pub fn cases() -> Vec<Case> {
    [few_records(), many_records(), blocks()].concat()
}

/// A plan at the limits.
fn on(label: &str, records: &[Record]) -> LabelledPlan {
    LabelledPlan::of_records(&format!("n 256, T 255, {label}"), (256, 255), records)
}

/// Rows of stations in which every source adds to the loads of those behind it, and plans with few contacts.
/// k = n is among the calls of loads, but for the first row.
fn few_records() -> Vec<Case> {
    let turned = on("spaced row, g 16", &spaced_row(16)).turning(16);
    let plans = [
        on("row", &rising_row()).counted(),
        on("falling row", &falling_row()).counted(),
        turned.counted(),
        on("empty plan", &[]),
        on("corners", &CORNERS),
    ];
    let mut cases = vec![plans[0].longer_partial(256).stating(0)];
    for plan in plans {
        for sources in [0, 1, 2, 128, 255] {
            cases.push(plan.longer_partial(sources).stating(0));
        }
        for sources in [257, 65536, u64::MAX] {
            cases.push(plan.longer_partial(sources).stating(13));
        }
    }
    cases
}

/// 8,192 records.
fn many_records() -> Vec<Case> {
    let star = on("8192 records, 0 meets all in turn", &star()).counted();
    let dense = LabelledPlan::of_records("n 64, T 127, 8192 records", (64, 127), &dense());
    let cases = [
        star.longer_partial(7),
        dense.counted().turning(4).longer_partial(33),
    ];
    assert!(cases.iter().all(|case| case.bytes.len() == 6 * 8192));
    cases.map(|case| case.stating(0)).to_vec()
}

/// The calls of loads in pair-cases on plans whose stations do not divide evenly into blocks. Most of their paths are
/// from the station in the middle.
pub fn loads_of_blocks() -> Vec<Case> {
    let mut plans = loads_among([limit_cases(), turnaround_calls()].concat());
    plans.retain(|case| case.label.starts_with("blocks "));
    plans
}

/// Such plans with the sources below the middle, and with the middle too.
fn blocks() -> Vec<Case> {
    let two = |case: &Case| {
        let middle = u64::from(case.stations) / 2;
        [middle, middle + 1].map(|sources| of_sources(case, sources))
    };
    loads_of_blocks().iter().flat_map(two).collect()
}
