//! Document 01's examples, the smallest plans, and plans with one direction alone.

use super::{on_table, Input};
use crate::cases::{doubled, PLAN_A};
use crate::one_way::{OneWayPlan, ONE_WAY_PLANS};

pub fn inputs() -> Vec<Input> {
    let mut backwards = PLAN_A;
    backwards.reverse();
    let mut inputs = on_table(&[
        ("plan A", &PLAN_A, 0),
        ("empty input", &[], 0),
        ("P8 a repeated record", &[(1, 0, 1), (1, 0, 1)], 5),
        ("P8 a station with itself", &[(1, 1, 1)], 4),
        (
            "P10 two contacts of one slot",
            &doubled(&[(1, 0, 1), (1, 1, 2)]),
            0,
        ),
        (
            "two contacts of two slots",
            &doubled(&[(1, 0, 1), (2, 1, 2)]),
            0,
        ),
        (
            "two contacts, the later first",
            &doubled(&[(1, 1, 2), (2, 0, 1)]),
            0,
        ),
        ("one contact", &doubled(&[(1, 0, 1)]), 0),
        ("one contact of other stations", &doubled(&[(1, 3, 4)]), 0),
        ("one contact in slot 2", &doubled(&[(2, 0, 1)]), 0),
        ("plan A without its first record", &PLAN_A[1..], 0),
        ("plan A without its last record", &PLAN_A[..11], 0),
        ("plan A backwards", &backwards, 3),
    ]);
    let one_way = |plan: &OneWayPlan| Input::on_records(plan.label, plan.records, 0);
    inputs.extend(ONE_WAY_PLANS.iter().map(one_way));
    inputs
}
