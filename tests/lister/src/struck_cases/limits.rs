//! Struck out at n 256 and T 255, with few records and with 8,192; and sizes whose stations do not divide evenly into
//! blocks.

use super::Case;
use crate::cases::Record;
use crate::pair_cases::{dense, LabelledPlan};
use crate::partial_cases::{loads_of_blocks, plan_of};
use crate::reach_cases::{falling_row, rising_row, star, CORNERS};
use crate::turned::spaced_row;

pub fn cases() -> Vec<Case> {
    [few_records(), many_records(), lengths(), blocks()].concat()
}

/// A plan at the limits.
fn on(label: &str, records: &[Record]) -> LabelledPlan {
    LabelledPlan::of_records(&format!("n 256, T 255, {label}"), (256, 255), records)
}

impl LabelledPlan {
    /// Struck out at the first position, at one in the middle, at the last one and at the one behind it.
    fn some_struck(&self) -> Vec<Case> {
        let mut cases = self.every_struck();
        let (middle, last) = (cases.len() / 2, cases.len() - 2);
        let mut place = 0..;
        let chosen = [0, middle, last, last + 1];
        cases.retain(|_| place.next().is_some_and(|at| chosen.contains(&at)));
        cases
    }
}

/// Rows of stations, in which every contact is in the walks of many pairs; few contacts; and none.
fn few_records() -> Vec<Case> {
    let turned = on("spaced row, g 16", &spaced_row(16)).turning(16);
    let falling = on("falling row", &falling_row()).counted();
    let plans = [
        on("row", &rising_row()).counted(),
        turned.counted(),
        on("corners", &CORNERS),
    ];
    let mut cases: Vec<Case> = plans.iter().flat_map(LabelledPlan::some_struck).collect();
    cases.push(falling.longer_struck(127).stating(0));
    cases.extend(on("empty plan", &[]).every_struck());
    cases
}

/// 8,192 records.
fn many_records() -> Vec<Case> {
    let star = on("8192 records", &star()).counted();
    let dense = LabelledPlan::of_records("n 64, T 127, 8192 records", (64, 127), &dense());
    let mut cases = star.some_struck();
    let dense = dense.counted().turning(4).longer_struck(4096);
    cases.push(dense.stating(0));
    assert!(cases.iter().all(|case| case.bytes.len() == 6 * 8192));
    cases
}

/// The largest memory: one entry too short, and longer.
fn lengths() -> Vec<Case> {
    let plan = on("corners, one entry short", &CORNERS);
    let mut cases = Vec::new();
    for table in 0..2 {
        let mut case = plan.struck(4).stating(8);
        case.label += &format!(", length {table}");
        case.lengths[table] -= 1;
        cases.push(case);
    }
    let longer = on("corners, longer", &CORNERS).struck(4);
    cases.push(longer.longer([64, 56]).stating(0));
    cases
}

/// The plans of pair-cases in blocks, each without one of its contacts.
fn blocks() -> Vec<Case> {
    let plans = loads_of_blocks();
    let plans = plans.iter().map(plan_of);
    let struck = |(index, plan): (usize, LabelledPlan)| {
        let position = index as u64 % 5 * u64::from(plan.records() - 1) / 4;
        plan.longer_struck(position).stating(0)
    };
    plans.enumerate().map(struck).collect()
}
