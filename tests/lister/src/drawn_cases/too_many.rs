//! Cause 9 of the first source, of one in any other place and of several.

use super::{of_loads, Case};
use crate::pair_cases::{LabelledPlan, Operation};
use crate::partial_cases::too_many_cases;
use crate::struck_cases::struck_ladders;

pub fn cases() -> Vec<Case> {
    let mut cases = of_every_source();
    let refused = struck_ladders().into_iter().filter(|plan| plan.with == 9);
    for ladder in refused {
        let label = ladder.label.replacen(" at a station", "", 1);
        let plan = LabelledPlan {
            label,
            ..ladder.labelled()
        };
        cases.push(plan.longer_drawn().marked(4321).stating(9));
    }
    cases.dedup_by(|one, other| (&one.bytes, one.keeping) == (&other.bytes, other.keeping));
    cases
}

/// The calls of partial loads with every station a source.
fn of_every_source() -> Vec<Case> {
    let mut cases = too_many_cases();
    cases.retain(|case| case.operation == Operation::PartialLoads(case.stations.into()));
    cases.iter().map(of_loads).collect()
}
