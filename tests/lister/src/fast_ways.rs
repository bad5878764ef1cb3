//! First way and next way by numbers of walks. This is no plain lister: it lists no walk.
//!
//! The rank of a shortest walk is how many of the pair come before it. A walk is found from its rank,
//! and the rank from the walk, by the numbers of completions behind each earlier contact; the walk
//! after a given one has the next rank. The module serves plans with too many walks to be listed; the
//! tests compare it with the plain lister on small plans.

use crate::answer::Answer;
use crate::numbers::{Appearances, Walks};
use crate::plan::{Appearance, Ends, Plan};
use crate::ways::CompleteList;

/// The shortest walks of one pair that has some.
pub struct Ranked {
    plan: Plan,
    appearances: Appearances,
    /// The start, (source, 0).
    start: usize,
    /// For each number of hops below the pair's, how many walks of so many hops go on from each
    /// appearance to the destination.
    completions: Vec<Vec<u128>>,
    /// The number of shortest walks.
    count: u128,
}

impl Ranked {
    /// The pair's shortest walks; none if there is no walk.
    fn of_pair(
        plan: Plan,
        appearances: Appearances,
        source: usize,
        destination: usize,
    ) -> Option<Ranked> {
        let start = appearances.number(Appearance::start(source));
        let mut completions = Vec::new();
        let mut last = appearances.ended(destination);
        while last[start] == 0 {
            if last.iter().all(|count| *count == 0) {
                return None;
            }
            let longer = appearances.longer_completions(&last);
            completions.push(last);
            last = longer;
        }
        let count = last[start];
        Some(Ranked {
            plan,
            appearances,
            start,
            completions,
            count,
        })
    }

    /// The appearance that a contact brings after an appearance.
    fn followed(&self, at: usize, position: usize) -> Option<usize> {
        self.appearances.stepped(&self.plan, at, position)
    }

    /// The rank of offered positions; none if they are no shortest walk.
    fn rank(&self, offered: &[u16]) -> Option<u128> {
        let mut at = self.start;
        let mut rank = 0;
        for (position, completions) in offered.iter().zip(self.completions.iter().rev()) {
            let position = usize::from(*position);
            let reached = self.followed(at, position)?;
            if completions[reached] == 0 {
                return None;
            }
            let earlier = (0..position).filter_map(|earlier| self.followed(at, earlier));
            rank += earlier.map(|reached| completions[reached]).sum::<u128>();
            at = reached;
        }
        Some(rank)
    }

    /// The positions of the walk of a rank, which is below the count.
    fn walk(&self, rank: u128) -> Vec<u16> {
        let mut at = self.start;
        let mut rank = rank;
        let mut walk = Vec::new();
        for completions in self.completions.iter().rev() {
            let mut position = 0;
            at = loop {
                assert!(position < self.plan.contacts.len(), "a rank over the count");
                if let Some(reached) = self.followed(at, position) {
                    if rank < completions[reached] {
                        break reached;
                    }
                    rank -= completions[reached];
                }
                position += 1;
            };
            walk.push(position as u16);
        }
        walk
    }
}

/// The pair's walks, none where it has no walk.
impl CompleteList for Option<Ranked> {
    fn count(&self) -> u128 {
        self.as_ref().map_or(0, |ranked| ranked.count)
    }

    fn walk(&self, place: u128) -> Vec<u16> {
        self.as_ref()
            .map_or(Vec::new(), |ranked| ranked.walk(place))
    }

    fn place(&self, buffer: &[u16]) -> Option<u128> {
        let ranked = self.as_ref()?;
        ranked.rank(&buffer[..ranked.completions.len()])
    }
}

/// The shortest walks of a pair of an accepted plan, or cause 9.
pub fn list(limit: u64, plan: Plan, (source, destination): Ends) -> Answer<Option<Ranked>> {
    let appearances = Appearances::new(&plan);
    Walks::from_source(&appearances, source).few_enough(limit)?;
    Ok(Ranked::of_pair(plan, appearances, source, destination))
}
