//! Pairs and foremost by numbers of walks. This is no plain lister: it lists no walk.
//!
//! From a source it adds up how many walks of each number of hops, shortest or not, end at each
//! appearance; back from a destination, in how many ways such a walk is completed. Where units keep
//! every reading, a shortest walk is a path, so one with a station interior has one appearance of it, and
//! the through count is the sum of walks × completions over the station's appearances. Where they drop
//! readings, pairs come from `fast_avoiding`. The module serves plans with too many walks to be listed;
//! the tests compare it with the plain lister on small plans.

use std::collections::BTreeSet;
use std::ops::Range;

use crate::answer::Answer;
use crate::fast_avoiding;
use crate::foremost::Foremost;
use crate::numbers::{Appearances, Walks};
use crate::pair::{PairValues, Paired, PairsFrom};
use crate::plan::{Ends, Plan};
use crate::shortest::NO_WALK;

/// An appearance, and in how many ways a walk that ends there is completed.
type Completions = (usize, u128);

impl Walks<'_> {
    /// The completions of walks of so many hops, from those of walks of one hop more. `leaving` is 0
    /// before and after; in between it has the completions that leave a station in a slot.
    fn completions(
        &self,
        hops: usize,
        later: &[Completions],
        leaving: &mut [u128],
    ) -> Vec<Completions> {
        let mut stations = BTreeSet::new();
        for (at, completions) in later {
            for from in &self.appearances.hears[*at] {
                leaving[*from] += completions;
                stations.insert(self.appearances.all[*from].station);
            }
        }
        let mut earlier = Vec::new();
        for station in stations {
            for (at, after) in self.appearances.sums_after(station, leaving) {
                if after > 0 && self.of_hops[hops][at] > 0 {
                    earlier.push((at, after));
                }
            }
            leaving[self.appearances.of_station[station].clone()].fill(0);
        }
        earlier
    }

    /// Hops, count and through counts of the shortest walks that end in a part of the appearances of
    /// a destination. They are not too many, and paths: the sum for a station has a walk as often as it
    /// calls there. `leaving` is 0 for each appearance, before and after.
    fn paired(&self, part: Range<usize>, leaving: &mut [u128]) -> Paired {
        let mut through = vec![0; self.appearances.of_station.len()];
        let Some((hops, count)) = self.shortest(part.clone()) else {
            let values = PairValues {
                hops: NO_WALK,
                count: 0,
            };
            return Paired { values, through };
        };
        let ends = part.filter(|at| self.of_hops[hops][*at] > 0);
        let mut completions: Vec<Completions> = ends.map(|at| (at, 1)).collect();
        for hops in (1..hops).rev() {
            completions = self.completions(hops, &completions, leaving);
            for (at, completed) in &completions {
                let paths = self.of_hops[hops][*at].checked_mul(*completed);
                let paths = paths.and_then(|paths| u64::try_from(paths).ok());
                through[self.appearances.all[*at].station] += paths.expect("at most the count");
            }
        }
        let values = PairValues {
            hops: hops as u16,
            count: count as u64,
        };
        Paired { values, through }
    }
}

/// The values of pairs by numbers of walks.
pub fn pairs_from(limit: u64, plan: &Plan) -> PairsFrom<'_> {
    if plan.keeps_all() {
        by_completions(limit, plan)
    } else {
        fast_avoiding::pairs_from(limit, plan)
    }
}

/// The values of pairs of a plan in which no reading is dropped, by sums of walks × completions.
pub fn by_completions(limit: u64, plan: &Plan) -> PairsFrom<'_> {
    let appearances = Appearances::new(plan);
    let mut leaving = vec![0; appearances.all.len()];
    Box::new(move |source, destinations| {
        let walks = Walks::from_source(&appearances, source);
        walks.few_enough(limit)?;
        let paired = destinations.iter().map(|destination| {
            let part = appearances.of_station[*destination].clone();
            walks.paired(part, &mut leaving)
        });
        Ok(paired.collect())
    })
}

/// The values of foremost by numbers of walks, or cause 9: of a destination's appearances, which rise
/// by slot, the first that a walk reaches is the earliest.
pub fn foremost(limit: u64, plan: &Plan, (source, destination): Ends) -> Answer<Foremost> {
    let appearances = Appearances::new(plan);
    let walks = Walks::from_source(&appearances, source);
    walks.few_to_appearances(limit)?;
    let mut part = appearances.of_station[destination].clone();
    let earliest = part.find(|at| walks.to_appearance(*at).is_some());
    let slot = earliest.map_or(NO_WALK, |at| appearances.all[at].slot as u16);
    let part = earliest.map_or(0..0, |at| at..at + 1);
    let paired = walks.paired(part, &mut vec![0; appearances.all.len()]);
    Ok(Foremost::new(slot, paired))
}
