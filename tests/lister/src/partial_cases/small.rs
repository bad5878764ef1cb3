//! Small plans, some with every number of sources and some with one drawn, and drawn plans with turnarounds.

use crate::pair_cases::{small_plans, Case};
use crate::random::Random;
use crate::turned::drawn_plans;

/// The seed of marks, lengths and numbers of sources.
const SEED: u64 = 22;

pub fn cases() -> Vec<Case> {
    let mut random = Random::new(SEED);
    let mut plans = small_plans();
    plans.extend(drawn_plans(15));
    let mut cases = Vec::new();
    for (index, plan) in plans.iter().enumerate() {
        let mark = random.below(65536) as u16;
        let stations = usize::from(plan.sizes.0);
        let sources = match index % 3 {
            0 => 0..=stations + 1,
            _ => {
                let drawn = random.between(1, stations);
                drawn..=drawn
            }
        };
        for sources in sources {
            let case = plan.partial(sources as u64).marked(mark);
            cases.push(case.lent_near(&mut random, index));
        }
    }
    cases
}
