//! P1 to P3 and P10, plan A and plans with one direction alone from every source.

use super::Case;
use crate::cases::{doubled, PLAN_A};
use crate::one_way::ONE_WAY_PLANS;

pub fn cases() -> Vec<Case> {
    let plan_a = |label: &str, source: u16| Case::on_records(label, (5, 4), &PLAN_A, source);
    let mut cases = vec![
        Case::on_records("P1 empty plan, n 1, T 1", (1, 1), &[], 0),
        plan_a("P2 plan A from 0", 0),
        plan_a("P3 plan A from 0, longer tables", 0).longer([3, 2, 1, 4]),
    ];
    for source in 0..5 {
        let case = plan_a(&format!("plan A from {source}"), source);
        cases.push(case.marked(100 + source));
    }
    for source in 0..3 {
        let label = format!("P10 two contacts in slot 1, from {source}");
        let records = doubled(&[(1, 0, 1), (1, 1, 2)]);
        cases.push(Case::on_records(&label, (3, 1), &records, source));
    }
    for plan in ONE_WAY_PLANS {
        for source in 0..plan.sizes.0 {
            let label = format!("{}, from {source}", plan.label);
            cases.push(Case::on_records(&label, plan.sizes, plan.records, source));
        }
    }
    cases.into_iter().map(|case| case.stating(0)).collect()
}
