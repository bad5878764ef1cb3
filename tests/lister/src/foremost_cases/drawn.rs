//! Drawn plans with more slots than hops: the pairs whose earliest path is not the shortest.

use super::by_foremost;
use crate::cases::valid_records;
use crate::means::Counting;
use crate::pair_cases::{Case, LabelledPlan, Operation};
use crate::plans::pairs;
use crate::random::Random;

/// The seed of plans and marks; each label names it.
const SEED: u64 = 9;
/// The number of plans.
const PLANS: usize = 150;

pub fn cases() -> Vec<Case> {
    let mut random = Random::new(SEED);
    let mut cases = Vec::new();
    for index in 0..PLANS {
        let (stations, slots) = (random.between(4, 7), random.between(5, 12));
        let wanted = random.between(10, 24);
        let records = valid_records(&mut random, stations, slots, wanted);
        let label = format!("drawn {index}, seed {SEED}");
        let plan = LabelledPlan::of_records(&label, (stations as u16, slots as u16), &records);
        let mark = random.below(65536) as u16;
        cases.extend(more_hops_earlier(&plan).map(|case| case.marked(mark)));
    }
    cases
}

/// The pairs whose shortest foremost paths have more hops than the shortest ones.
pub fn more_hops_earlier(plan: &LabelledPlan) -> impl Iterator<Item = Case> + '_ {
    let hops = |case: &Case, place: usize| {
        let counted = Case {
            counting: Counting::Fast,
            ..case.clone()
        };
        counted.outcome().values[place]
    };
    let pairs = pairs(plan.sizes.0.into());
    let pairs = pairs
        .map(|(source, destination)| plan.case(Operation::Pair(source as u16, destination as u16)));
    pairs.filter_map(move |pair| {
        let foremost = by_foremost(pair.clone())?;
        (hops(&foremost, 1) > hops(&pair, 0)).then_some(foremost)
    })
}
