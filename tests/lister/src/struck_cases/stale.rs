//! Struck out where readings are dropped: every position of small plans by hand and drawn, plan A with g and h in their
//! limits, T around h, and blocks of detours.

use super::Case;
use crate::pair_cases::LabelledPlan;
use crate::random::Random;
use crate::stale::{
    detours_around, drawn_stale_plans, plan_a, some_detours, stale_blocks, KNOWN_TERMS, STALE_PLANS,
};

/// The seed of the marks.
const SEED: u64 = 27;

pub fn cases() -> Vec<Case> {
    let mut plans: Vec<LabelledPlan> = STALE_PLANS.iter().map(|plan| plan.labelled()).collect();
    plans.extend(KNOWN_TERMS.map(|terms| plan_a("plan A", terms)));
    plans.extend(detours_around());
    plans.extend(some_detours(67));
    let mut cases: Vec<Case> = plans.iter().flat_map(LabelledPlan::every_struck).collect();
    for plan in stale_blocks() {
        let records = u64::from(plan.records());
        cases.extend([0, records / 2, records - 1].map(|position| {
            let case = plan.longer_struck(position);
            case.stating(0)
        }));
    }
    let mut random = Random::new(SEED);
    for plan in drawn_stale_plans(12) {
        let mark = random.below(65536) as u16;
        let positions = 0..=u64::from(plan.records());
        cases.extend(positions.map(|position| plan.struck(position).marked(mark)));
    }
    cases
}
