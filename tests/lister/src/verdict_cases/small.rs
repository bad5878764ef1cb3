//! Small plans: those of reach-cases and the valid ones of check-cases with g = 1, and drawn ones with turnarounds.
//! Every prefix of every complete list of a pair with paths of two hops or more, and some of the lists with a change.

use super::Case;
use crate::lists::{prefixes, with_one_change, with_walks_changed};
use crate::pair_cases::{small_plans, LabelledPlan};
use crate::plans::pairs;
use crate::random::Random;
use crate::reach_cases::other_length;
use crate::turned::drawn_plans;

/// The seed of changes, marks and lengths.
const SEED: u64 = 21;

pub fn cases() -> Vec<Case> {
    let mut random = Random::new(SEED);
    let mut cases = Vec::new();
    let small = small_plans().into_iter().map(|plan| plan.turning(1));
    for plan in small.chain(drawn_plans(24)) {
        for (source, destination) in pairs(plan.sizes.0.into()) {
            cases.extend(of_pair(
                &mut random,
                &plan,
                (source as u16, destination as u16),
            ));
        }
    }
    cases
}

/// The cases of a pair, on marks and lengths drawn.
fn of_pair(random: &mut Random, plan: &LabelledPlan, ends: (u16, u16)) -> Vec<Case> {
    let paths = plan.paths(ends);
    let list = paths.concat();
    if paths.first().map_or(0, Vec::len) < 2 {
        return Vec::new();
    }
    let mut changed = with_one_change(&list, plan.records());
    changed.extend(with_walks_changed(&paths));
    changed.retain(|_| random.below(40) == 0);
    let mut lists = prefixes(&list);
    lists.extend(changed);
    let with_lengths = random.below(8) == 0;
    let case = |list| {
        let case = plan.judged(ends, list);
        let scratch = case.call.lengths[0];
        let case = case.marked(random.below(65536) as u16, 0);
        match with_lengths {
            true => case.lent(other_length(random, scratch)),
            false => case,
        }
    };
    lists.into_iter().map(case).collect()
}
