//! P5, P6, P9 and P10, busiest and every pair of plan A, plans with one direction alone, and plans
//! without contacts, all with g = 1.

use super::{Case, LabelledPlan};
use crate::cases::{doubled, PLAN_A};
use crate::one_way::ONE_WAY_PLANS;

pub fn cases() -> Vec<Case> {
    let plan_a = |label: &str| LabelledPlan::of_records(label, (5, 4), &PLAN_A).turning(1);
    let two = doubled(&[(1, 0, 1), (1, 1, 2)]);
    let ten = LabelledPlan::of_records("P10 two contacts in slot 1", (3, 1), &two).turning(1);
    let mut cases = vec![
        plan_a("P5 plan A").pair(0, 4),
        plan_a("P5 plan A, longer").pair(0, 4).longer([2, 0, 3]),
        plan_a("P6 plan A").pair(2, 1),
        plan_a("P6 plan A, longer").pair(2, 1).longer([2, 0, 3]),
        plan_a("P9 plan A").loads(),
        plan_a("P9 plan A, longer").loads().longer([2, 1, 3]),
        plan_a("plan A, longer").busiest().longer([0, 0, 3]),
    ];
    cases.extend(plan_a("plan A").every_call());
    cases.extend(ten.every_call());
    for plan in ONE_WAY_PLANS {
        cases.extend(plan.labelled().turning(1).every_call());
    }
    for n in 1..=3 {
        let label = format!("empty plan, n {n}, T 1");
        let empty = LabelledPlan::of_records(&label, (n, 1), &[]);
        cases.extend(empty.turning(1).every_call());
    }
    cases.into_iter().map(|case| case.stating(0)).collect()
}
