//! The plans around 2^64 walks of reach-cases: pair from their source, and loads of the refused ones and
//! of the largest count.

use super::{Case, LabelledPlan};
use crate::plan::LEAST_TURNAROUND;
use crate::reach_cases::exact_plans;

pub fn cases() -> Vec<Case> {
    let mut cases = Vec::new();
    for exact in exact_plans(64, LEAST_TURNAROUND) {
        let plan = LabelledPlan::built(&exact.label, &exact.builder);
        let end = exact.builder.sizes().0 - 1;
        let pair = plan.pair(0, end).stating(exact.number);
        cases.push(pair.longer([3, 0, 2]));
        if exact.number == 9 || exact.label == "2^64-1 in one slot" {
            cases.push(plan.loads().stating(exact.number));
        }
    }
    cases
}
