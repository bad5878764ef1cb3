//! Operation 4, pair.

use crate::answer::Answer;
use crate::causes::known_pair;
use crate::fast_pairs;
use crate::lent::{clear, scratch_length};
use crate::means::{Counting, Means};
use crate::plan::{read, Ends, Plan, PlanInput};
use crate::shortest::{count_of, hops_of, shortest_walks, walks_within};
use crate::walk::Walk;

/// The values that pair answers: 65535 and 0 if there is no walk.
#[derive(Clone, Copy, Debug, Default, PartialEq, Eq)]
pub struct PairValues {
    pub hops: u16,
    pub count: u64,
}

/// What pair answers, and its n through counts.
#[derive(Clone, Debug, PartialEq, Eq)]
pub struct Paired {
    pub values: PairValues,
    pub through: Vec<u64>,
}

/// The through count of a station: how many walks of the list have it interior, each counted once however
/// often it calls there.
fn through_count(walks: &[&Walk], station: usize) -> u64 {
    let through = walks.iter().filter(|walk| walk.has_interior(station));
    through.count() as u64
}

/// The values of the listed walks of a pair.
pub fn paired(plan: &Plan, walks: &[&Walk]) -> Paired {
    let through = (0..plan.stations).map(|station| through_count(walks, station));
    Paired {
        values: PairValues {
            hops: hops_of(walks),
            count: count_of(walks),
        },
        through: through.collect(),
    }
}

/// For a source and some destinations the values of their pairs, or cause 9.
pub type PairsFrom<'a> = Box<dyn FnMut(usize, &[usize]) -> Answer<Vec<Paired>> + 'a>;

/// The values of pairs by their lists of walks.
fn listed_pairs(limit: u64, plan: &Plan) -> PairsFrom<'_> {
    Box::new(move |source, destinations| {
        let walks = walks_within(limit, plan, source)?;
        let lists = destinations
            .iter()
            .map(|destination| shortest_walks(&walks, *destination));
        Ok(lists.map(|walks| paired(plan, &walks)).collect())
    })
}

/// The plan of a call on a pair without a cause before 9; the named parts of what is lent are then 0.
pub fn cleared(
    input: PlanInput,
    ends: Ends,
    through: &mut [u64],
    scratch: &mut [u64],
) -> Answer<Plan> {
    let plan = read(input)?;
    known_pair(plan.stations, ends)?;
    let named = scratch_length(plan.stations, plan.slots);
    clear(&mut [(through, plan.stations), (scratch, named)])?;
    Ok(plan)
}

impl Means {
    /// The values of the pairs of an accepted plan.
    pub fn pairs_from(self, plan: &Plan) -> PairsFrom<'_> {
        match self.counting {
            Counting::Listed => listed_pairs(self.limit, plan),
            Counting::Fast => fast_pairs::pairs_from(self.limit, plan),
        }
    }

    /// Pair: hops, count, and n through counts in the lent table.
    pub fn pair(
        self,
        input: PlanInput,
        ends: Ends,
        through: &mut [u64],
        scratch: &mut [u64],
    ) -> Answer<PairValues> {
        let plan = cleared(input, ends, through, scratch)?;
        let found = self.pairs_from(&plan)(ends.0, &[ends.1])?;
        through[..plan.stations].copy_from_slice(&found[0].through);
        Ok(found[0].values)
    }
}
