//! Every position of small plans, with several g and h in turn, and of drawn plans with turnarounds.

use super::Case;
use crate::pair_cases::{small_plans, LabelledPlan};
use crate::random::Random;
use crate::stale::terms_text;
use crate::turned::drawn_plans;

/// The seed of marks and lengths.
const SEED: u64 = 23;

/// The g and h of the small plans.
const TERMS: [(u16, u16); 8] = [
    (1, 255),
    (1, 1),
    (2, 255),
    (1, 2),
    (1, 3),
    (2, 3),
    (1, 4),
    (16, 255),
];

/// The small plans with these in turn.
pub fn small_with_terms() -> impl Iterator<Item = LabelledPlan> {
    let small = small_plans().into_iter().enumerate();
    small.map(|(index, plan)| {
        let terms = TERMS[index % TERMS.len()];
        let label = format!("{}, {}", plan.label, terms_text(terms));
        let plan = LabelledPlan { label, ..plan };
        plan.turning(terms.0).keeping_for(terms.1)
    })
}

pub fn cases() -> Vec<Case> {
    let mut random = Random::new(SEED);
    let mut cases = Vec::new();
    for (index, plan) in small_with_terms().chain(drawn_plans(15)).enumerate() {
        let mark = random.below(65536) as u16;
        for position in 0..=plan.records() {
            let case = plan.struck(position.into()).marked(mark);
            cases.push(case.lent_near(&mut random, index));
        }
    }
    cases
}
