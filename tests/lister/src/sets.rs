//! Document 02's operation on a pair and a set of stations, through set (C-12).

use crate::answer::Answer;
use crate::causes::{known_pair, long_enough, set_bytes};
use crate::fast_sets;
use crate::lent::{clear, scratch_length};
use crate::means::{Counting, Means};
use crate::plan::{read, Ends, Plan, PlanInput};
use crate::shortest::{shortest_walks, walks_within};

/// The byte of a member.
pub const MEMBER: u8 = 1;

/// The bytes of a set of so many stations.
pub fn set_of(stations: usize, members: &[usize]) -> Vec<u8> {
    let byte = |station: usize| u8::from(members.contains(&station));
    (0..stations).map(byte).collect()
}

/// The members of a set.
fn members_of(set: &[u8]) -> Vec<usize> {
    let members = (0..set.len()).filter(|station| set[*station] == MEMBER);
    members.collect()
}

/// How many of the pair's listed walks have some member interior, or cause 9.
fn listed(limit: u64, plan: &Plan, ends: Ends, members: &[usize]) -> Answer<u64> {
    let walks = walks_within(limit, plan, ends.0)?;
    let walks = shortest_walks(&walks, ends.1);
    let touched = walks
        .iter()
        .filter(|walk| members.iter().any(|member| walk.has_interior(*member)));
    Ok(touched.count() as u64)
}

impl Means {
    /// Through set: how many shortest walks of a pair have at least one member of the set interior. The
    /// set has a byte for each station, 1 for a member and 0 for not.
    pub fn through_set(
        self,
        input: PlanInput,
        ends: Ends,
        set: &[u8],
        scratch: &mut [u64],
    ) -> Answer<u64> {
        let plan = read(input)?;
        known_pair(plan.stations, ends)?;
        let named = scratch_length(plan.stations, plan.slots);
        long_enough(set.len(), plan.stations)?;
        long_enough(scratch.len(), named)?;
        let set = &set[..plan.stations];
        set_bytes(set)?;
        clear(&mut [(scratch, named)])?;
        let touched = match self.counting {
            Counting::Listed => listed,
            Counting::Fast => fast_sets::touched,
        };
        touched(self.limit, &plan, ends, &members_of(set))
    }
}
