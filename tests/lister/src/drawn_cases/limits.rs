//! Drawn loads at n 256 and T 255: rows of stations, 8,192 records, and the largest memory.

use super::Case;
use crate::cases::{valid_records, Record};
use crate::pair_cases::LabelledPlan;
use crate::random::Random;
use crate::reach_cases::{rising_row, star, CORNERS};
use crate::turned::spaced_row;

pub fn cases() -> Vec<Case> {
    [plans(), lengths()].concat()
}

/// A plan at the limits.
fn on(label: &str, records: &[Record]) -> LabelledPlan {
    LabelledPlan::of_records(&format!("n 256, T 255, {label}"), (256, 255), records)
}

/// The seed of the drawn records; the label names it.
const SEED: u64 = 30;

/// A row in which the stations in the middle have the most pairs, one of stations that wait, one station between all others,
/// and 8,192 records drawn.
fn plans() -> Vec<Case> {
    let drawn = valid_records(&mut Random::new(SEED), 256, 255, 8192);
    let plans = [
        on("row", &rising_row()),
        on("spaced row, g 16", &spaced_row(16)).turning(16),
        on("8192 records, 0 meets all", &star()),
        on(&format!("8192 records, seed {SEED}"), &drawn),
    ];
    let case = |plan: LabelledPlan| plan.counted().longer_drawn().stating(0);
    plans.map(case).to_vec()
}

/// The largest memory: each part one entry or byte too short, and longer.
fn lengths() -> Vec<Case> {
    let mut cases = Vec::new();
    for table in 0..4 {
        let plan = on(&format!("corners, length {table} short"), &CORNERS);
        cases.push(plan.drawn().shorter(&[table]).stating(8));
    }
    let longest = on("corners, longest", &CORNERS).drawn();
    cases.push(longest.longer([64, 64, 92, 56]).stating(0));
    cases
}
