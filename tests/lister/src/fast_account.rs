//! The pairs of a station and their first walks by numbers of walks. This is no plain lister: it lists no walk but
//! those that are given.
//!
//! Back from a destination it adds up in how many ways a walk is completed, and in how many of these the station is
//! reached before the end. A search by rising positions takes a contact only where such a completion is behind it, so
//! every branch ends in a walk that is given. The module serves plans with too many walks to be listed; the tests
//! compare it with the plain lister on small plans.

use crate::account::{AccountPair, MOST_SHOWN};
use crate::answer::Answer;
use crate::numbers::{Appearances, Walks};
use crate::pair::PairValues;
use crate::plan::{Appearance, Ends, Plan};

/// The completions of walks to one destination, for each number of hops from 0 on.
struct Completions<'a> {
    plan: &'a Plan,
    appearances: &'a Appearances,
    station: usize,
    /// Of each appearance, all of them.
    all: Vec<Vec<u128>>,
    /// Of each appearance, those by which a walk has the station interior that had it not before: all where the
    /// appearance is the station's, and otherwise those that reach it before their end.
    calling: Vec<Vec<u128>>,
}

impl Completions<'_> {
    /// The completions of up to so many hops. The station is not the destination.
    fn new<'a>(
        plan: &'a Plan,
        appearances: &'a Appearances,
        station: usize,
        destination: usize,
        hops: usize,
    ) -> Completions<'a> {
        let row = appearances.of_station[station].clone();
        let mut all = vec![appearances.ended(destination)];
        let mut calling = vec![vec![0; appearances.all.len()]];
        for done in 0..hops {
            let longer = appearances.longer_completions(&all[done]);
            let mut called = appearances.longer_completions(&calling[done]);
            called[row.clone()].copy_from_slice(&longer[row.clone()]);
            all.push(longer);
            calling.push(called);
        }
        Completions {
            plan,
            appearances,
            station,
            all,
            calling,
        }
    }

    /// Goes on with a walk of which so many hops are left, from an appearance, and gives the walks that have the
    /// station interior in order, until there are `MOST_SHOWN`.
    fn search(&self, walk: &mut Vec<u16>, at: usize, left: usize, found: &mut Vec<Vec<u16>>) {
        let Some(left) = left.checked_sub(1) else {
            found.push(walk.clone());
            return;
        };
        let is_called = |position: &u16| self.hearer(*position) == self.station;
        let completions = match walk.iter().any(is_called) {
            true => &self.all[left],
            false => &self.calling[left],
        };
        for position in 0..self.plan.contacts.len() {
            let reached = self.appearances.stepped(self.plan, at, position);
            let Some(reached) = reached.filter(|reached| completions[*reached] > 0) else {
                continue;
            };
            walk.push(position as u16);
            self.search(walk, reached, left, found);
            walk.pop();
            if found.len() == MOST_SHOWN {
                return;
            }
        }
    }

    /// The station that hears in the contact at a position.
    fn hearer(&self, position: u16) -> usize {
        self.plan.contacts[usize::from(position)].hearer
    }
}

/// A pair whose ends are not the station, if some shortest walk has the station interior.
fn pair(plan: &Plan, walks: &Walks, station: usize, ends: Ends) -> Option<AccountPair> {
    let (source, destination) = ends;
    let (hops, count) = walks.to_station(destination)?;
    let appearances = walks.appearances;
    let completions = Completions::new(plan, appearances, station, destination, hops);
    let start = appearances.number(Appearance::start(source));
    let through = completions.calling[hops][start];
    let mut found = Vec::new();
    if through > 0 {
        completions.search(&mut Vec::new(), start, hops, &mut found);
    }
    (through > 0).then_some(AccountPair {
        ends,
        values: PairValues {
            hops: hops as u16,
            count: count as u64,
        },
        through: through as u64,
        walks: found,
    })
}

/// The pairs of a station, by source and then by destination, or cause 9 of any source.
pub fn pairs(limit: u64, plan: &Plan, station: usize) -> Answer<Vec<AccountPair>> {
    let appearances = Appearances::new(plan);
    let mut pairs = Vec::new();
    for source in 0..plan.stations {
        let walks = Walks::from_source(&appearances, source);
        walks.few_enough(limit)?;
        if source == station {
            continue;
        }
        let ends = (0..plan.stations).map(|destination| (source, destination));
        let ends = ends.filter(|ends| ends.1 != source && ends.1 != station);
        pairs.extend(ends.filter_map(|ends| pair(plan, &walks, station, ends)));
    }
    Ok(pairs)
}
