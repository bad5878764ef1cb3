//! Small plans with every pair, loads and busiest: those of reach-cases, and the valid ones of
//! check-cases.

use super::{Case, LabelledPlan};
use crate::cases::generated_cases;
use crate::random::Random;
use crate::reach_cases::{further_plans, other_length, outer_stations};

/// The seed of marks and lengths.
const SEED: u64 = 6;

pub fn cases() -> Vec<Case> {
    let mut random = Random::new(SEED);
    let mut cases = Vec::new();
    for (index, plan) in small_plans().iter().enumerate() {
        let mark = random.below(65536) as u16;
        for case in plan.every_call() {
            let case = case.marked(mark);
            if index % 4 == 3 {
                let lengths = case.lengths.map(|named| length_near(&mut random, named));
                cases.push(case.lent(lengths));
            } else {
                cases.push(case);
            }
        }
    }
    cases.extend(large_plans());
    cases
}

/// The length of a table that the operation has, or nearly; 0 for one that it does not have.
fn length_near(random: &mut Random, named: usize) -> usize {
    if named == 0 {
        return 0;
    }
    other_length(random, named)
}

/// The plans of up to 6 stations.
pub fn small_plans() -> Vec<LabelledPlan> {
    let further = further_plans().into_iter().enumerate();
    let further = further.map(|(index, case)| {
        let label = format!("small {index}");
        LabelledPlan::new(&label, (case.stations, case.slots), case.bytes)
    });
    let mut plans = checked_plans();
    plans.retain(|plan| plan.sizes.0 <= 6);
    plans.extend(further);
    plans
}

/// The valid plans of check-cases.
pub fn checked_plans() -> Vec<LabelledPlan> {
    let mut plans = Vec::new();
    for (index, case) in generated_cases().into_iter().enumerate() {
        if case.number() == 0 {
            let label = format!("generated {index}");
            let sizes = (case.stations, case.slots);
            plans.push(LabelledPlan::new(&label, sizes, case.bytes));
        }
    }
    plans
}

/// The larger valid plans of check-cases: a pair both ways, and loads or busiest for some.
fn large_plans() -> Vec<Case> {
    let mut plans = checked_plans();
    plans.retain(|plan| plan.sizes.0 > 6);
    let mut cases = Vec::new();
    for (index, plan) in plans.iter().enumerate() {
        let ends: Vec<u16> = outer_stations(&plan.bytes).into_iter().collect();
        if let [first, last] = ends[..] {
            cases.extend([plan.pair(first, last), plan.pair(last, first)]);
        }
        match index % 20 {
            0 => cases.push(plan.loads()),
            10 => cases.push(plan.busiest()),
            _ => {}
        }
    }
    cases
}
