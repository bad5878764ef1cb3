//! Plan A, plans by hand, small plans with several g and h, and a station whose only share is below 2^-32.

use super::Case;
use crate::pair_cases::LabelledPlan;
use crate::partial_cases::plans_by_hand;
use crate::random::Random;
use crate::reach_cases::Builder;
use crate::stale::plan_a;
use crate::struck_cases::small_with_terms;

/// The station of `no_share` with a pair and no load.
pub const UNSHARED: usize = 96;

/// A ladder of 32 layers from station 0 and, beside it, a chain of as many hops. The last station hears the last layer and
/// the chain's end, 96, in slot 33; it also hears all stations between 0 and 96 in slot 1, before they have heard anything.
/// So only the pair of 0 and the last station has 96 interior, to one of 2^32 + 1 walks.
pub fn no_share() -> Builder {
    let layers = 32;
    let mut builder = Builder::start();
    let mut last = builder.sent_ladder(layers, 2);
    let mut chained = 0;
    for slot in 1..=layers {
        let next = builder.station();
        builder.send(slot, chained, next);
        chained = next;
    }
    assert_eq!(chained, UNSHARED);
    let end = builder.station();
    last.push(chained);
    builder.hear_all(layers + 1, end, &last);
    let between: Vec<usize> = (1..chained).collect();
    builder.hear_all(1, end, &between);
    builder
}

pub fn cases() -> Vec<Case> {
    let plan_a = |label: &str| plan_a(label, (1, 255));
    let mut cases = vec![
        plan_a("P9 plan A").longer_drawn(),
        plan_a("P9 plan A, exactly long enough").drawn(),
        plan_a("P9 plan A, zeros before").longer_drawn().marked(0),
        plan_a("P9 plan A, ones before")
            .longer_drawn()
            .marked(65535),
        plan_a("P9 plan A, low byte 0").longer_drawn().marked(768),
    ];
    for plan in plans_by_hand() {
        let label = format!("{}, longer", plan.label);
        cases.push(LabelledPlan { label, ..plan }.longer_drawn());
    }
    let unshared = LabelledPlan::built("one of 2^32 + 1 walks", &no_share());
    cases.push(unshared.longer_drawn().marked(4321));
    let mut cases: Vec<Case> = cases.into_iter().map(|case| case.stating(0)).collect();
    cases.extend(small());
    cases
}

/// The seed of marks and lengths.
const SEED: u64 = 29;

/// Small plans, some on other lengths.
fn small() -> Vec<Case> {
    let mut random = Random::new(SEED);
    let mut cases = Vec::new();
    for (index, plan) in small_with_terms().enumerate() {
        let case = plan.drawn().marked(random.below(65536) as u16);
        cases.push(case.lent_near(&mut random, index));
    }
    cases
}
