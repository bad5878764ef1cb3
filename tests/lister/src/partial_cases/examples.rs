//! Every number of sources on plan A, on plans with one direction alone and with turnarounds, and on plans
//! without contacts; and numbers far above n.

use crate::cases::{doubled, PLAN_A};
use crate::one_way::ONE_WAY_PLANS;
use crate::pair_cases::{Case, LabelledPlan};
use crate::turned::{rows_around, TURNED_PLANS};

/// Numbers above 6; some are at most 5 in their low bits alone.
const FAR: [u64; 12] = [
    7,
    255,
    256,
    257,
    256 + 5,
    65535,
    65536,
    65536 + 5,
    1 << 32,
    (1 << 48) + 1,
    1 << 63,
    u64::MAX,
];

/// Plan A with g = 1.
pub fn plan_a(label: &str) -> LabelledPlan {
    LabelledPlan::of_records(label, (5, 4), &PLAN_A).turning(1)
}

/// P10, and plans with one direction alone, with turnarounds and without contacts.
pub fn plans_by_hand() -> Vec<LabelledPlan> {
    let ten = doubled(&[(1, 0, 1), (1, 1, 2)]);
    let ten = LabelledPlan::of_records("P10 two contacts in slot 1", (3, 1), &ten);
    let mut plans = vec![ten.turning(1)];
    plans.extend(ONE_WAY_PLANS.iter().map(|plan| plan.labelled().turning(1)));
    plans.extend(TURNED_PLANS.iter().map(|plan| plan.labelled()));
    plans.extend(rows_around());
    for n in 1..=3 {
        let label = format!("empty plan, n {n}, T 1");
        plans.push(LabelledPlan::of_records(&label, (n, 1), &[]).turning(1));
    }
    plans
}

pub fn cases() -> Vec<Case> {
    let mut plans = vec![
        plan_a("plan A"),
        plan_a("plan A, g 3").turning(3),
        plan_a("plan A, g 16").turning(16),
    ];
    plans.extend(plans_by_hand());
    let mut cases: Vec<Case> = plans.iter().flat_map(LabelledPlan::every_partial).collect();
    let exact = plan_a("plan A, exactly long enough");
    cases.extend((0..=5).map(|sources| exact.partial(sources).stating(0)));
    let far = plan_a("13 for plan A");
    cases.extend(FAR.map(|sources| far.longer_partial(sources).stating(13)));
    cases
}
