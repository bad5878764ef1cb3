//! Document 02's contact that is struck out (C-23): each station's change of load, and the pairs that use the contact.

use crate::answer::Answer;
use crate::causes::{known_position, long_enough};
use crate::fast_struck;
use crate::lent::{clear, scratch_length};
use crate::means::{Counting, Means};
use crate::plan::{read, Plan, PlanInput};
use crate::shortest::{shortest_walks, walks_within};

impl Plan {
    /// The plan without the record at a position. n, T, g and h stay; later records stand one position earlier.
    pub fn without(&self, position: usize) -> Plan {
        let mut plan = self.clone();
        plan.contacts.remove(position);
        plan
    }
}

/// How many ordered pairs have the position in a walk of their list, or cause 9.
fn listed(limit: u64, plan: &Plan, position: usize) -> Answer<u64> {
    let mut pairs = 0;
    for source in 0..plan.stations {
        let walks = walks_within(limit, plan, source)?;
        let uses = |destination: &usize| {
            let list = shortest_walks(&walks, *destination);
            list.iter()
                .any(|walk| walk.positions.contains(&(position as u16)))
        };
        let others = (0..plan.stations).filter(|station| *station != source);
        pairs += others.filter(uses).count() as u64;
    }
    Ok(pairs)
}

impl Means {
    /// Struck out: how many ordered pairs have a shortest walk that uses the contact at a position, and in the lent
    /// table each station's load without the contact less its load with it.
    pub fn struck_out(
        self,
        input: PlanInput,
        position: usize,
        changes: &mut [i64],
        scratch: &mut [u64],
    ) -> Answer<u64> {
        let plan = read(input)?;
        let (stations, named) = (plan.stations, scratch_length(plan.stations, plan.slots));
        long_enough(changes.len(), stations)?;
        long_enough(scratch.len(), named)?;
        known_position(plan.contacts.len(), position)?;
        changes[..stations].fill(0);
        clear(&mut [(scratch, named)])?;
        let with = self.loads_from(&plan, stations)?;
        let without = self.loads_from(&plan.without(position), stations)?;
        for (change, (with, without)) in changes.iter_mut().zip(with.iter().zip(&without)) {
            *change = without.load as i64 - with.load as i64;
        }
        match self.counting {
            Counting::Listed => listed(self.limit, &plan, position),
            Counting::Fast => Ok(fast_struck::pairs_using(&plan, position)),
        }
    }
}
