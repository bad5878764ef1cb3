//! The plans that are timed: in each of them stations hear each other, two records for a contact.
//! Random ones have a fixed seed.

use std::collections::BTreeSet;

use lister::cases::{doubled, plan_bytes, Record};
use lister::plan::{Ends, PlanInput, KEPT, LEAST_TURNAROUND, RECORD_BYTES};
use lister::random::Random;
use lister::reach_cases;

use crate::native::pass::{pass, pass_entries, Task};

/// The seed of every random plan.
const SEED: u64 = 1;

/// A plan with a name.
#[derive(Clone, Debug)]
pub struct Plan {
    pub name: String,
    /// n
    pub stations: usize,
    /// T
    pub slots: usize,
    /// g
    pub turnaround: usize,
    /// h
    pub keeping: usize,
    bytes: Vec<u8>,
}

impl Plan {
    pub fn input(&self) -> PlanInput<'_> {
        PlanInput {
            bytes: &self.bytes,
            stations: self.stations,
            slots: self.slots,
            turnaround: self.turnaround,
            keeping: self.keeping,
        }
    }

    /// The plan with another turnaround.
    pub fn turning(self, turnaround: usize) -> Plan {
        Plan { turnaround, ..self }
    }

    /// The plan of units that drop a reading so many slots after hearing it.
    pub fn keeping_for(self, keeping: usize) -> Plan {
        Plan { keeping, ..self }
    }

    pub fn records(&self) -> usize {
        self.bytes.len() / RECORD_BYTES
    }

    /// The plan without the record at a position.
    pub fn without(&self, position: usize) -> Plan {
        let mut plan = self.clone();
        let from = RECORD_BYTES * position;
        plan.bytes.drain(from..from + RECORD_BYTES);
        plan
    }

    /// A pair with as many shortest paths as some pair has, among those with at most `most`; its
    /// number of paths beside it.
    pub fn pair_with_paths(&self, most: u64) -> (Ends, u64) {
        let mut best = ((0, 0), 0);
        for source in 0..self.stations {
            let entries = self.entries_from(source).into_iter().enumerate();
            for (destination, (_, count)) in entries {
                if destination != source && count <= most && count > best.1 {
                    best = ((source, destination), count);
                }
            }
        }
        best
    }

    /// Hops and count of the shortest paths from a source to each station.
    pub fn entries_from(&self, source: usize) -> Vec<(u64, u64)> {
        let task = Task {
            source,
            low: 0,
            block: 0,
        };
        let mut work = vec![0; pass_entries(self.input(), 0)];
        let area = pass(&mut work, self.input(), task).expect("counts within 64 bits");
        let hops = area.hops.iter().copied();
        hops.zip(area.counts.iter().copied()).collect()
    }
}

/// Distinct random contacts, each in both directions: `records` records, in order.
fn random(name: &str, stations: usize, slots: usize, records: usize) -> Plan {
    let mut random = Random::new(SEED);
    let mut contacts: BTreeSet<Record> = BTreeSet::new();
    while 2 * contacts.len() < records {
        let slot = random.between(1, slots);
        let a = random.below(stations);
        let b = random.below(stations);
        if a != b {
            contacts.insert((slot as u16, a.min(b) as u16, a.max(b) as u16));
        }
    }
    let contacts: Vec<Record> = contacts.into_iter().collect();
    Plan {
        name: name.to_string(),
        stations,
        slots,
        turnaround: LEAST_TURNAROUND,
        keeping: KEPT,
        bytes: plan_bytes(&doubled(&contacts)),
    }
}

/// The ladder of document 01, doubled.
fn ladder(name: &str, layers: usize) -> Plan {
    let builder = reach_cases::ladder(layers, 2);
    let (stations, slots) = builder.sizes();
    Plan {
        name: name.to_string(),
        stations: stations.into(),
        slots: slots.into(),
        turnaround: LEAST_TURNAROUND,
        keeping: KEPT,
        bytes: builder.bytes(),
    }
}

/// The plans of every question: the largest random one, one with few slots, the ladder of document
/// 01, and the load program's limit.
pub fn named() -> [Plan; 4] {
    [
        random("largest random", 256, 255, 8192),
        random("16 slots", 256, 16, 8192),
        ladder("ladder of 64 layers", 64),
        random("load program's limit", 32, 63, 1024),
    ]
}

/// The largest random plan with each turnaround that is timed beside the least one.
pub fn turned() -> [Plan; 2] {
    [2, 16].map(|turnaround| {
        let [largest, ..] = named();
        largest.turning(turnaround)
    })
}

/// The largest random plan with units that drop readings.
pub fn dropping() -> [Plan; 3] {
    [128, 16, 4].map(|keeping| {
        let [largest, ..] = named();
        Plan {
            name: format!("h {keeping}"),
            ..largest.keeping_for(keeping)
        }
    })
}

/// The plans on which an archive is timed beside another besides the named ones.
pub fn varied() -> Vec<Plan> {
    let turned = turned().map(|plan| Plan {
        name: format!("g {}", plan.turnaround),
        ..plan
    });
    let mut plans = Vec::from(turned);
    plans.extend(dropping());
    plans.extend(by_records());
    plans.extend(by_stations());
    plans.extend(by_slots());
    plans
}

/// The plan of a name.
pub fn plan_of(name: &str) -> Result<Plan, String> {
    let mut plans = named().into_iter().chain(varied());
    let found = plans.find(|plan| plan.name == name);
    found.ok_or(format!("no plan {name}"))
}

/// Plans that grow in records, from the empty plan on.
pub fn by_records() -> [Plan; 5] {
    let plan = |records| random(&format!("{records} records"), 256, 255, records);
    [0, 1024, 2048, 4096, 8192].map(plan)
}

/// Plans that grow in n.
pub fn by_stations() -> [Plan; 4] {
    let plan = |stations| random(&format!("n {stations}"), stations, 255, 8192);
    [32, 64, 128, 256].map(plan)
}

/// Plans that grow in T.
pub fn by_slots() -> [Plan; 5] {
    let plan = |slots| random(&format!("T {slots}"), 256, slots, 8192);
    [16, 32, 64, 128, 255].map(plan)
}

#[cfg(test)]
mod tests {
    use super::*;
    use crate::native::plan::{check, contacts};

    #[test]
    fn the_named_plans_are_accepted_and_have_two_records_for_a_contact() {
        let plans = named();
        let sizes = plans.each_ref().map(Plan::records);
        assert_eq!(sizes, [8192, 8192, 508, 1024]);
        for plan in &plans {
            assert!(check(plan.input()).is_ok());
            let upward =
                contacts(plan.input().bytes).filter(|record| record.sender < record.hearer);
            assert_eq!(2 * upward.count(), plan.records());
        }
    }
}
