//! Operation 2, reach.

use crate::answer::Answer;
use crate::causes::{few_enough, known_station, long_enough};
use crate::fast;
use crate::lent::{appearances, place};
use crate::means::{Counting, Means};
use crate::plan::{read, Plan, PlanInput};
use crate::shortest::{entries_of, NO_WALK};
use crate::walk::walks_from;

/// The four tables lent to reach.
#[derive(Debug)]
pub struct ReachTables<'a> {
    /// Hops to each appearance, n × (T+1) entries.
    pub appearance_hops: &'a mut [u16],
    /// Counts of shortest walks to each appearance, n × (T+1) entries.
    pub appearance_counts: &'a mut [u64],
    /// Hops to each station, n entries.
    pub station_hops: &'a mut [u16],
    /// Counts of shortest walks to each station, n entries.
    pub station_counts: &'a mut [u64],
}

/// The named lengths of the four tables.
pub fn reach_named(stations: usize, slots: usize) -> [usize; 4] {
    let named = appearances(stations, slots);
    [named, named, stations, stations]
}

/// Four tables to lend.
#[derive(Clone, Debug, PartialEq, Eq)]
pub struct Tables {
    pub appearance_hops: Vec<u16>,
    pub appearance_counts: Vec<u64>,
    pub station_hops: Vec<u16>,
    pub station_counts: Vec<u64>,
}

impl Tables {
    /// Tables of given lengths that hold a mark.
    pub fn marked(lengths: [usize; 4], mark: u16) -> Tables {
        Tables {
            appearance_hops: vec![mark; lengths[0]],
            appearance_counts: vec![mark.into(); lengths[1]],
            station_hops: vec![mark; lengths[2]],
            station_counts: vec![mark.into(); lengths[3]],
        }
    }

    /// The tables, lent.
    pub fn lend(&mut self) -> ReachTables<'_> {
        ReachTables {
            appearance_hops: &mut self.appearance_hops,
            appearance_counts: &mut self.appearance_counts,
            station_hops: &mut self.station_hops,
            station_counts: &mut self.station_counts,
        }
    }
}

/// The hops and the number of the shortest walks to an appearance or a station.
#[derive(Clone, Copy, Debug, PartialEq, Eq)]
pub struct Entry {
    pub hops: u16,
    pub count: u128,
}

/// The entry of an appearance or a station that no walk reaches.
pub const NO_ENTRY: Entry = Entry {
    hops: NO_WALK,
    count: 0,
};

/// The entries of all appearances and of all stations, from one source.
#[derive(Clone, Debug, PartialEq, Eq)]
pub struct Entries {
    /// T
    slots: usize,
    appearances: Vec<Entry>,
    stations: Vec<Entry>,
}

impl Entries {
    /// The entries of a plan, each given by its place.
    pub fn new(
        plan: &Plan,
        to_appearance: impl Fn(usize, usize) -> Entry,
        to_station: impl Fn(usize) -> Entry,
    ) -> Entries {
        let slots = plan.slots;
        let mut appearances = Vec::new();
        for station in 0..plan.stations {
            appearances.extend((0..=slots).map(|slot| to_appearance(station, slot)));
        }
        Entries {
            slots,
            appearances,
            stations: (0..plan.stations).map(to_station).collect(),
        }
    }

    pub fn appearance(&self, station: usize, slot: usize) -> Entry {
        self.appearances[place(self.slots, station, slot)]
    }

    pub fn station(&self, station: usize) -> Entry {
        self.stations[station]
    }

    /// The appearances (station, slot) with more than `limit` shortest walks.
    pub fn appearances_over(&self, limit: u64) -> Vec<(usize, usize)> {
        let width = self.slots + 1;
        let places = over(&self.appearances, limit);
        places.map(|at| (at / width, at % width)).collect()
    }

    /// The stations with more than `limit` shortest walks.
    pub fn stations_over(&self, limit: u64) -> Vec<usize> {
        over(&self.stations, limit).collect()
    }

    /// Foremost's cause 9: no appearance has more than `limit` shortest walks.
    pub fn appearances_within(&self, limit: u64) -> Answer<()> {
        few_enough(limit, self.appearances.iter().map(|entry| entry.count))
    }

    /// Cause 9: no appearance and no station has more than `limit` shortest walks.
    pub fn within(&self, limit: u64) -> Answer<()> {
        self.appearances_within(limit)?;
        few_enough(limit, self.stations.iter().map(|entry| entry.count))
    }
}

/// The places of the entries with more than `limit` walks.
fn over(entries: &[Entry], limit: u64) -> impl Iterator<Item = usize> + '_ {
    (0..entries.len()).filter(move |at| entries[*at].count > u128::from(limit))
}

/// Writes entries to the beginnings of a table of hops and one of counts.
fn write(entries: &[Entry], hops: &mut [u16], counts: &mut [u64]) {
    for (at, entry) in entries.iter().enumerate() {
        hops[at] = entry.hops;
        counts[at] = entry.count as u64;
    }
}

/// The plan of a call without a cause before 9; the named parts of the tables are then 0.
fn cleared(input: PlanInput, source: usize, tables: &mut ReachTables) -> Answer<Plan> {
    let plan = read(input)?;
    known_station(plan.stations, source)?;
    let named = reach_named(plan.stations, plan.slots);
    long_enough(tables.appearance_hops.len(), named[0])?;
    long_enough(tables.appearance_counts.len(), named[1])?;
    long_enough(tables.station_hops.len(), named[2])?;
    long_enough(tables.station_counts.len(), named[3])?;

    tables.appearance_hops[..named[0]].fill(0);
    tables.appearance_counts[..named[1]].fill(0);
    tables.station_hops[..named[2]].fill(0);
    tables.station_counts[..named[3]].fill(0);
    Ok(plan)
}

impl Counting {
    /// The entries of an accepted plan from a source.
    pub fn entries(self, plan: &Plan, source: usize) -> Entries {
        match self {
            Counting::Listed => entries_of(plan, &walks_from(plan, source)),
            Counting::Fast => fast::entries(plan, source),
        }
    }
}

impl Means {
    /// Reach from a source.
    pub fn reach(self, input: PlanInput, source: usize, mut tables: ReachTables) -> Answer<()> {
        let plan = cleared(input, source, &mut tables)?;
        let entries = self.counting.entries(&plan, source);
        entries.within(self.limit)?;
        let (hops, counts) = (tables.appearance_hops, tables.appearance_counts);
        write(&entries.appearances, hops, counts);
        write(
            &entries.stations,
            tables.station_hops,
            tables.station_counts,
        );
        Ok(())
    }
}
