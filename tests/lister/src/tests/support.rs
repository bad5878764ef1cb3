//! Plans and calls that several tests share.

use crate::answer::Answer;
use crate::cases::{doubled, Record, PLAN_A};
use crate::foremost::Foremost;
use crate::loads::Load;
use crate::means::{COUNT_LIMIT, LISTED};
use crate::pair::Paired;
use crate::plan::{read, Ends, Plan};
use crate::plans::{possible_records, subsets};
use crate::random::Random;
use crate::reach::{reach_named, Tables};
use crate::reach_cases::{exact_plans, Exact};
use crate::sets::set_of;
use crate::stale::{detours, random_stale_plan, small_terms, STALE_PLANS};
use crate::turned::TURNED_PLANS;
use crate::walk::Walk;

pub use crate::plans::{all_doubled_plans, all_plans, pairs, random_plan, Owned};
pub use crate::turned::random_turned_plan;

impl Owned {
    pub fn plan_a() -> Owned {
        Owned::new(5, 4, &PLAN_A)
    }

    /// The plan in which the stations of each record hear each other.
    pub fn doubled(stations: usize, slots: usize, meetings: &[Record]) -> Owned {
        Owned::new(stations, slots, &doubled(meetings))
    }

    pub fn plan(&self) -> Plan {
        read(self.input()).unwrap()
    }

    /// Reach on tables of exactly the named lengths.
    pub fn reach(&self, limit: u64, source: usize) -> Answer<Reached> {
        let mut tables = Tables::marked(reach_named(self.stations, self.slots), 7);
        let listed = LISTED.within(limit);
        listed.reach(self.input(), source, tables.lend())?;
        let slots = self.slots;
        Ok(Reached { slots, tables })
    }

    /// Pair on tables of exactly the named lengths.
    pub fn pair(&self, limit: u64, source: usize, destination: usize) -> Answer<Paired> {
        let mut through = vec![7; self.stations];
        let mut scratch = vec![7; self.scratch_length()];
        let (listed, ends) = (LISTED.within(limit), (source, destination));
        let values = listed.pair(self.input(), ends, &mut through, &mut scratch)?;
        assert!(scratch.iter().all(|entry| *entry == 0));
        Ok(Paired { values, through })
    }

    /// Foremost on tables of exactly the named lengths.
    pub fn foremost(&self, limit: u64, ends: Ends) -> Answer<Foremost> {
        let mut through = vec![7; self.stations];
        let mut scratch = vec![7; self.scratch_length()];
        let listed = LISTED.within(limit);
        let values = listed.foremost(self.input(), ends, &mut through, &mut scratch)?;
        assert!(scratch.iter().all(|entry| *entry == 0));
        Ok(Foremost { values, through })
    }

    /// Through set on a scratch of exactly the named length.
    pub fn through_set(&self, limit: u64, ends: Ends, set: &[u8]) -> Answer<u64> {
        let mut scratch = vec![7; self.scratch_length()];
        let listed = LISTED.within(limit);
        let touched = listed.through_set(self.input(), ends, set, &mut scratch)?;
        assert!(scratch.iter().all(|entry| *entry == 0));
        Ok(touched)
    }

    /// How many shortest paths of a pair have one of the members interior.
    pub fn touched(&self, ends: Ends, members: &[usize]) -> u64 {
        let set = set_of(self.stations, members);
        self.through_set(COUNT_LIMIT, ends, &set).unwrap()
    }

    /// Loads on tables of exactly the named lengths.
    pub fn loads(&self, limit: u64) -> Answer<Vec<Load>> {
        let listed = LISTED.within(limit);
        self.loaded(|pairs, loads, scratch| listed.loads(self.input(), pairs, loads, scratch))
    }

    /// Partial loads on tables of exactly the named lengths.
    pub fn partial_loads(&self, limit: u64, sources: usize) -> Answer<Vec<Load>> {
        let (listed, input) = (LISTED.within(limit), self.input());
        self.loaded(|pairs, loads, scratch| {
            listed.partial_loads(input, sources, pairs, loads, scratch)
        })
    }

    /// A call that fills a table of pairs and one of loads.
    pub fn loaded(
        &self,
        call: impl FnOnce(&mut [u64], &mut [u64], &mut [u64]) -> Answer<()>,
    ) -> Answer<Vec<Load>> {
        let mut pairs = vec![7; self.stations];
        let mut loads = vec![7; self.stations];
        let mut scratch = vec![7; self.scratch_length()];
        call(&mut pairs, &mut loads, &mut scratch)?;
        assert!(scratch.iter().all(|entry| *entry == 0));
        let entry = |(pairs, load)| Load { pairs, load };
        Ok(pairs.into_iter().zip(loads).map(entry).collect())
    }

    /// Busiest on scratch of exactly the named length.
    pub fn busiest(&self, limit: u64) -> Answer<usize> {
        let mut scratch = vec![7; self.scratch_length()];
        let answer = LISTED.within(limit).busiest(self.input(), &mut scratch);
        assert!(scratch.iter().all(|entry| *entry == 0));
        answer
    }
}

/// The four tables that reach fills.
#[derive(Debug, PartialEq, Eq)]
pub struct Reached {
    slots: usize,
    tables: Tables,
}

impl Reached {
    /// Hops and count of a station.
    pub fn station(&self, station: usize) -> (u16, u64) {
        let Tables {
            station_hops,
            station_counts,
            ..
        } = &self.tables;
        (station_hops[station], station_counts[station])
    }

    /// Hops and count of an appearance.
    pub fn appearance(&self, station: usize, slot: usize) -> (u16, u64) {
        let place = station * (self.slots + 1) + slot;
        let tables = &self.tables;
        (
            tables.appearance_hops[place],
            tables.appearance_counts[place],
        )
    }
}

/// The shortest of the paths to a station, ordered by their positions: the complete list where no reading is
/// dropped.
pub fn shortest_paths(walks: &[Walk], destination: usize) -> Vec<&Walk> {
    let reaches = |walk: &&Walk| walk.is_path() && walk.end() == destination;
    let mut paths: Vec<&Walk> = walks.iter().filter(reaches).collect();
    let fewest = paths.iter().map(|path| path.hops()).min();
    paths.retain(|path| Some(path.hops()) == fewest);
    paths.sort_by(|one, other| one.positions.cmp(&other.positions));
    paths
}

/// The largest load, found first; then the lowest-numbered station that has it.
pub fn lowest_of_the_largest(loads: &[Load]) -> usize {
    let largest = loads.iter().map(|entry| entry.load).max();
    let station = loads.iter().position(|entry| Some(entry.load) == largest);
    station.unwrap()
}

/// The seed of the drawn plans among the tiny ones.
const SEED: u64 = 16;
/// The number of drawn plans of each size.
pub const DRAWN: usize = 1500;

/// Drawn plans of a size, with each possible record at even odds.
fn drawn_plans(stations: usize, slots: usize) -> impl Iterator<Item = Owned> {
    let mut random = Random::new(SEED);
    let possible = possible_records(stations, slots);
    (0..DRAWN).map(move |_| {
        let mut records = possible.clone();
        records.retain(|_| random.below(2) == 0);
        Owned::new(stations, slots, &records)
    })
}

/// All plans with n up to 3 and T up to 2 and with n 2 and T 3. Of those with n 3 and T 3 and with n 4
/// and T 2 drawn ones; of these sizes too all, and every other one, in which stations hear each other.
pub fn tiny_plans() -> Vec<Owned> {
    let mut plans = all_plans(2, 3);
    for stations in 1..=3 {
        for slots in 1..=2 {
            plans.extend(all_plans(stations, slots));
        }
    }
    plans.extend(drawn_plans(3, 3));
    plans.extend(drawn_plans(4, 2));
    plans.extend(all_doubled_plans(3, 3));
    plans.extend(all_doubled_plans(4, 2).into_iter().step_by(2));
    plans
}

/// The turnarounds of `turned_plans`.
pub const TURNED: [usize; 3] = [2, 3, 5];

/// Plans with turnarounds: some of the tiny ones with 2 and 3; from 0 to 1 and from 1 to 2 in up to six slots,
/// and two stations in up to five, with 2, 3 and 5; drawn ones with up to 9 slots; and those by hand.
pub fn turned_plans() -> Vec<Owned> {
    let tiny = tiny_plans().into_iter().filter(|plan| plan.slots == 3);
    let mut plans: Vec<Owned> = tiny
        .enumerate()
        .map(|(index, plan)| plan.turning(2 + index % 2))
        .collect();
    let links: Vec<Record> = (1..=6).flat_map(|t| [(t, 0, 1), (t, 1, 2)]).collect();
    let links = subsets(&links).step_by(5);
    plans.extend(links.map(|records| Owned::new(3, 6, &records)));
    plans.extend(all_plans(2, 5).into_iter().step_by(2));
    for (index, plan) in plans.iter_mut().enumerate() {
        if plan.slots > 3 {
            plan.turnaround = TURNED[index % TURNED.len()];
        }
    }
    let mut random = Random::new(SEED);
    plans.extend((0..DRAWN).map(|_| random_turned_plan(&mut random)));
    plans.extend(TURNED_PLANS.iter().map(|plan| plan.owned()));
    plans
}

/// Plans whose units drop readings: those by hand, with detours and of two stations in six slots with each small
/// g and h in turn, and drawn ones.
pub fn stale_plans() -> Vec<Owned> {
    let two_stations = all_plans(2, 5).into_iter().step_by(3);
    let plans = detours().into_iter().chain(two_stations);
    let terms = small_terms();
    let mut plans: Vec<Owned> = (plans.enumerate())
        .map(|(index, plan)| {
            let (turnaround, keeping) = terms[index % terms.len()];
            plan.turning(turnaround).keeping_for(keeping)
        })
        .collect();
    let mut random = Random::new(SEED);
    plans.extend((0..DRAWN).map(|_| random_stale_plan(&mut random)));
    plans.extend(STALE_PLANS.iter().map(|plan| plan.owned()));
    plans
}

/// The plans around a largest count of 2^bits−1 that are small enough to be listed often.
pub fn small_exact_plans(bits: usize, turnaround: usize) -> Vec<(Exact, Owned)> {
    let plans = exact_plans(bits, turnaround).into_iter();
    let built = plans.map(|exact| {
        let owned = Owned::built(&exact.builder);
        (exact, owned)
    });
    built.filter(|(_, owned)| owned.stations < 100).collect()
}
