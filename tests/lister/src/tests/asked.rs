//! The calls of one means on memory of the named lengths, for tests that ask both.

use super::support::Owned;
use crate::answer::{number, Answer};
use crate::drawing::drawn_length;
use crate::loads::Load;
use crate::means::{Means, COUNTED, LISTED};
use crate::pair::{PairValues, Paired};
use crate::plan::Ends;
use crate::reach::{reach_named, Tables};
use crate::sets::set_of;
use crate::shortest::NO_WALK;
use crate::verdicts::Verdict;
use crate::ways::{Found, Way};

/// The plain lister and the numbers of walks.
pub const BOTH: [Means; 2] = [LISTED, COUNTED];

/// The calls of one means on a plan.
#[derive(Clone, Copy)]
pub struct Asked<'a>(pub Means, pub &'a Owned);

impl Asked<'_> {
    pub fn pair(self, ends: Ends) -> Answer<Paired> {
        let Asked(means, owned) = self;
        let mut through = vec![7; owned.stations];
        let mut scratch = vec![7; owned.scratch_length()];
        let values = means.pair(owned.input(), ends, &mut through, &mut scratch)?;
        Ok(Paired { values, through })
    }

    pub fn set(self, ends: Ends, members: &[usize]) -> Answer<u64> {
        let Asked(means, owned) = self;
        let set = set_of(owned.stations, members);
        let mut scratch = vec![7; owned.scratch_length()];
        means.through_set(owned.input(), ends, &set, &mut scratch)
    }

    pub fn loads(self, sources: usize) -> Answer<Vec<Load>> {
        let Asked(means, owned) = self;
        owned.loaded(|pairs, loads, scratch| {
            means.partial_loads(owned.input(), sources, pairs, loads, scratch)
        })
    }

    /// The number of pairs, and the changes.
    pub fn struck_out(self, position: usize) -> Answer<(u64, Vec<i64>)> {
        let Asked(means, owned) = self;
        let mut changes = vec![7; owned.stations];
        let mut scratch = vec![7; owned.scratch_length()];
        let pairs = means.struck_out(owned.input(), position, &mut changes, &mut scratch)?;
        assert!(scratch.iter().all(|entry| *entry == 0));
        Ok((pairs, changes))
    }

    /// Pairs and load of each station, and the records.
    pub fn drawn_loads(self) -> Answer<(Vec<Load>, Vec<u8>)> {
        let Asked(means, owned) = self;
        let mut records = vec![7; drawn_length(owned.stations)];
        let loads = owned.loaded(|pairs, loads, scratch| {
            means.drawn_loads(owned.input(), pairs, loads, &mut records, scratch)
        })?;
        Ok((loads, records))
    }

    pub fn busiest(self) -> Answer<usize> {
        let Asked(means, owned) = self;
        let mut scratch = vec![7; owned.scratch_length()];
        means.busiest(owned.input(), &mut scratch)
    }

    pub fn verdict(self, ends: Ends, list: &[u16]) -> Answer<Verdict> {
        let Asked(means, owned) = self;
        let mut scratch = vec![7; owned.scratch_length()];
        means.verdict(owned.input(), ends, list, &mut scratch)
    }

    /// The walks that first way and next way give, until none is left.
    pub fn listing(self, ends: Ends) -> Answer<Vec<Vec<u16>>> {
        let Asked(means, owned) = self;
        let mut buffer = vec![60000; owned.slots];
        let mut scratch = vec![7; owned.scratch_length()];
        let mut list = Vec::new();
        let mut way = Way::First;
        while let Found::Walk(hops) =
            means.way(way, owned.input(), ends, &mut buffer, &mut scratch)?
        {
            list.push(buffer[..usize::from(hops)].to_vec());
            way = Way::Next;
        }
        Ok(list)
    }

    pub fn reach(self, source: usize) -> (u8, Tables) {
        let Asked(means, owned) = self;
        let mut tables = Tables::marked(reach_named(owned.stations, owned.slots), 7);
        let answer = means.reach(owned.input(), source, tables.lend());
        (number(&answer), tables)
    }
}

/// Hops and count of a list of walks.
pub fn values_of(list: &[Vec<u16>]) -> PairValues {
    PairValues {
        hops: list.first().map_or(NO_WALK, |walk| walk.len() as u16),
        count: list.len() as u64,
    }
}
