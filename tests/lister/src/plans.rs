//! Small plans: all of a size, and generated ones.

use crate::cases::{doubled, plan_bytes, Record};
use crate::lent;
use crate::means::COUNT_LIMIT;
use crate::plan::{Ends, PlanInput, KEPT, LEAST_TURNAROUND, RECORD_BYTES};
use crate::random::Random;
use crate::reach_cases::Builder;
use crate::ways::{walks_of_call, WayCall};

/// The records of a plan in a table of plans.
#[derive(Clone, Copy, Debug)]
pub enum Records {
    /// Each stands for two stations that hear each other, and so for two records.
    Doubled(&'static [Record]),
    /// The records themselves.
    OneWay(&'static [Record]),
}

impl Records {
    /// All records, in order.
    pub fn all(self) -> Vec<Record> {
        match self {
            Records::Doubled(records) => doubled(records),
            Records::OneWay(records) => records.to_vec(),
        }
    }
}

/// A plan's bytes with n, T, g and h.
#[derive(Clone, Debug)]
pub struct Owned {
    pub bytes: Vec<u8>,
    pub stations: usize,
    pub slots: usize,
    pub turnaround: usize,
    pub keeping: usize,
}

impl Owned {
    /// The plan of some records, with the smallest turnaround, of units that keep every reading.
    pub fn new(stations: usize, slots: usize, records: &[Record]) -> Owned {
        Owned {
            bytes: plan_bytes(records),
            stations,
            slots,
            turnaround: LEAST_TURNAROUND,
            keeping: KEPT,
        }
    }

    /// The plan of a builder.
    pub fn built(builder: &Builder) -> Owned {
        let (stations, slots) = builder.sizes();
        Owned {
            bytes: builder.bytes(),
            stations: stations.into(),
            slots: slots.into(),
            turnaround: builder.turnaround(),
            keeping: KEPT,
        }
    }

    /// The plan with another turnaround.
    pub fn turning(self, turnaround: usize) -> Owned {
        Owned { turnaround, ..self }
    }

    /// The plan of units that drop a reading so many slots after hearing it.
    pub fn keeping_for(self, keeping: usize) -> Owned {
        Owned { keeping, ..self }
    }

    /// The plan without the six bytes of the record at a position.
    pub fn without(&self, position: usize) -> Owned {
        let mut owned = self.clone();
        let from = RECORD_BYTES * position;
        owned.bytes.drain(from..from + RECORD_BYTES);
        owned
    }

    /// The number of records.
    pub fn records(&self) -> usize {
        self.bytes.len() / RECORD_BYTES
    }

    pub fn input(&self) -> PlanInput<'_> {
        PlanInput {
            bytes: &self.bytes,
            stations: self.stations,
            slots: self.slots,
            turnaround: self.turnaround,
            keeping: self.keeping,
        }
    }

    /// The named entries of the scratch.
    pub fn scratch_length(&self) -> usize {
        lent::scratch_length(self.stations, self.slots)
    }

    /// A call on memory of exactly the named lengths.
    pub fn way_call(&self, source: usize, destination: usize) -> WayCall<'_> {
        WayCall {
            input: self.input(),
            source,
            destination,
            buffer_length: self.slots,
            scratch_length: self.scratch_length(),
        }
    }

    /// The positions of the pair's shortest walks.
    pub fn list(&self, source: usize, destination: usize) -> Vec<Vec<u16>> {
        walks_of_call(COUNT_LIMIT, &self.way_call(source, destination)).unwrap()
    }
}

/// The ordered pairs of two different stations.
pub fn pairs(stations: usize) -> impl Iterator<Item = Ends> {
    let of_source = move |source| (0..stations).map(move |destination| (source, destination));
    let all = (0..stations).flat_map(of_source);
    all.filter(|(source, destination)| source != destination)
}

/// All lists of a length with entries below a bound.
pub fn all_lists(length: usize, bound: u16) -> Vec<Vec<u16>> {
    let mut lists = vec![Vec::new()];
    for _ in 0..length {
        let longer = |list: &Vec<u16>| {
            let list = list.clone();
            (0..bound).map(move |entry| [list.as_slice(), &[entry]].concat())
        };
        lists = lists.iter().flat_map(longer).collect();
    }
    lists
}

/// All records that a valid plan can have, in order.
pub fn possible_records(stations: usize, slots: usize) -> Vec<Record> {
    let mut records = Vec::new();
    for slot in 1..=slots {
        for (a, b) in pairs(stations) {
            records.push((slot as u16, a as u16, b as u16));
        }
    }
    records
}

/// The possible records with a below b: each stands for two stations that hear each other.
pub fn possible_meetings(stations: usize, slots: usize) -> Vec<Record> {
    let mut records = possible_records(stations, slots);
    records.retain(|(_, a, b)| a < b);
    records
}

/// All subsets of records, in order; there are at most 20 records.
pub fn subsets(records: &[Record]) -> impl Iterator<Item = Vec<Record>> + '_ {
    assert!(records.len() <= 20, "too many subsets");
    let subset = |bits: u32| {
        let chosen = |place: &usize| bits >> place & 1 == 1;
        let places = (0..records.len()).filter(chosen);
        places.map(|place| records[place]).collect()
    };
    (0..1 << records.len()).map(subset)
}

/// All valid plans of n stations and T slots: every subset of the possible records.
pub fn all_plans(stations: usize, slots: usize) -> Vec<Owned> {
    let possible = possible_records(stations, slots);
    let plan = |records: Vec<Record>| Owned::new(stations, slots, &records);
    subsets(&possible).map(plan).collect()
}

/// All plans of n stations and T slots in which stations hear each other: every subset doubled.
pub fn all_doubled_plans(stations: usize, slots: usize) -> Vec<Owned> {
    let possible = possible_meetings(stations, slots);
    let plan = |records: Vec<Record>| Owned::new(stations, slots, &doubled(&records));
    subsets(&possible).map(plan).collect()
}

/// A plan of up to 6 stations and 5 slots, with each possible record at even odds or rarer; in one plan of
/// three, two stations hear each other where one hears the other.
pub fn random_plan(random: &mut Random) -> Owned {
    let stations = random.between(2, 6);
    let slots = random.between(1, 5);
    let odds = random.between(2, 5);
    if random.below(3) == 0 {
        let mut records = possible_meetings(stations, slots);
        records.retain(|_| random.below(odds) == 0);
        return Owned::new(stations, slots, &doubled(&records));
    }
    let mut records = possible_records(stations, slots);
    records.retain(|_| random.below(odds) == 0);
    Owned::new(stations, slots, &records)
}
