//! Document 02's operation on the shortest foremost paths of a pair, foremost (C-14): document 000's
//! Definition 11.

use crate::answer::Answer;
use crate::fast_pairs;
use crate::means::{Counting, Means};
use crate::pair::{cleared, paired, PairValues, Paired};
use crate::plan::{Ends, Plan, PlanInput};
use crate::shortest::{entries_of, foremost_walks, NO_WALK};
use crate::walk::walks_from;

/// The values that foremost answers: 65535, 65535 and 0 if there is no path.
#[derive(Clone, Copy, Debug, Default, PartialEq, Eq)]
pub struct ForemostValues {
    /// The earliest slot in which a walk reaches the destination.
    pub slot: u16,
    pub hops: u16,
    pub count: u64,
}

/// What foremost answers, and its n through counts.
#[derive(Clone, Debug, PartialEq, Eq)]
pub struct Foremost {
    pub values: ForemostValues,
    pub through: Vec<u64>,
}

impl Foremost {
    /// The values of the walks that arrive in a slot.
    pub fn new(slot: u16, Paired { values, through }: Paired) -> Foremost {
        let PairValues { hops, count } = values;
        let values = ForemostValues { slot, hops, count };
        Foremost { values, through }
    }
}

/// The values of the pair's listed walks, or cause 9.
fn listed(limit: u64, plan: &Plan, (source, destination): Ends) -> Answer<Foremost> {
    let walks = walks_from(plan, source);
    entries_of(plan, &walks).appearances_within(limit)?;
    let foremost = foremost_walks(&walks, destination);
    let slot = foremost.first().map_or(NO_WALK, |walk| walk.slot as u16);
    Ok(Foremost::new(slot, paired(plan, &foremost)))
}

impl Means {
    /// Foremost: the earliest slot, the fewest hops of the walks that arrive then, their count, and n
    /// through counts in the lent table. Arguments, lent memory and causes are those of pair, but 9
    /// looks at appearances alone, and h is not looked at: units keep every reading, and there is no 14.
    pub fn foremost(
        self,
        input: PlanInput,
        ends: Ends,
        through: &mut [u64],
        scratch: &mut [u64],
    ) -> Answer<ForemostValues> {
        let plan = cleared(input.kept(), ends, through, scratch)?;
        let found = match self.counting {
            Counting::Listed => listed,
            Counting::Fast => fast_pairs::foremost,
        };
        let found = found(self.limit, &plan, ends)?;
        through[..plan.stations].copy_from_slice(&found.through);
        Ok(found.values)
    }
}
