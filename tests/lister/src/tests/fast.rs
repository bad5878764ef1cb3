//! The numbers of walks, compared with the plain lister.

use super::support::{
    random_plan, random_turned_plan, stale_plans, tiny_plans, turned_plans, Owned,
};
use crate::answer::number;
use crate::fast::entries;
use crate::means::{Means, COUNTED, COUNT_LIMIT, LISTED};
use crate::random::Random;
use crate::reach::{reach_named, Entry, Tables};
use crate::reach_cases::{exact_plans, Builder};

/// The number and the tables of a reach, with two entries behind each named part.
fn outcome(means: Means, owned: &Owned, source: usize) -> (u8, Tables) {
    let named = reach_named(owned.stations, owned.slots);
    let mut tables = Tables::marked(named.map(|length| length + 2), 77);
    let answer = means.reach(owned.input(), source, tables.lend());
    (number(&answer), tables)
}

/// Asserts that both reaches answer alike, and gives the number.
fn assert_alike(limit: u64, owned: &Owned, source: usize) -> u8 {
    let listed = outcome(LISTED.within(limit), owned, source);
    let counted = outcome(COUNTED.within(limit), owned, source);
    assert_eq!(listed, counted, "limit {limit}, source {source}, {owned:?}");
    listed.0
}

#[test]
fn tiny_plans_are_counted_as_listed() {
    let mut refused = 0;
    for owned in tiny_plans() {
        for source in 0..owned.stations {
            for limit in [1, 2, COUNT_LIMIT] {
                refused += usize::from(assert_alike(limit, &owned, source) == 9);
            }
        }
    }
    assert!(refused > 1000, "{refused}");
}

#[test]
fn plans_with_turnarounds_are_counted_as_listed() {
    let mut refused = 0;
    for owned in turned_plans() {
        for source in 0..owned.stations {
            for limit in [1, 2, COUNT_LIMIT] {
                refused += usize::from(assert_alike(limit, &owned, source) == 9);
            }
        }
    }
    assert!(refused > 1000, "{refused}");
}

#[test]
fn plans_that_drop_readings_are_counted_as_listed() {
    let mut refused = 0;
    for owned in stale_plans() {
        for source in 0..owned.stations {
            for limit in [1, 2, COUNT_LIMIT] {
                refused += usize::from(assert_alike(limit, &owned, source) == 9);
            }
        }
    }
    assert!(refused > 1000, "{refused}");
}

#[test]
fn random_plans_are_counted_as_listed() {
    let mut random = Random::new(9);
    let mut refused = 0;
    for round in 0..4000 {
        let owned = match round % 2 {
            0 => random_plan(&mut random),
            _ => random_turned_plan(&mut random),
        };
        let source = random.below(owned.stations);
        let limit = [1, 2, 3, 5, 9, COUNT_LIMIT][random.below(6)];
        refused += usize::from(assert_alike(limit, &owned, source) == 9);
    }
    assert!((300..3500).contains(&refused), "{refused}");
}

#[test]
fn refused_calls_are_answered_alike() {
    let owned = Owned::plan_a();
    assert_eq!(assert_alike(COUNT_LIMIT, &owned, 5), 6);
    let few_stations = Owned {
        stations: 4,
        ..owned.clone()
    };
    assert_eq!(assert_alike(COUNT_LIMIT, &few_stations, 0), 4);
    let few_slots = Owned {
        slots: 3,
        ..owned.clone()
    };
    assert_eq!(assert_alike(COUNT_LIMIT, &few_slots, 9), 3);
    let short = owned.clone().keeping_for(0);
    assert_eq!(assert_alike(COUNT_LIMIT, &short, 5), 14);
    assert_eq!(assert_alike(COUNT_LIMIT, &short.turning(17), 5), 12);
}

#[test]
fn entries_of_plan_a() {
    let entries = entries(&Owned::plan_a().plan(), 0);
    let entry = |hops: u16, count: u128| Entry { hops, count };
    assert_eq!(entries.station(0), entry(0, 1));
    assert_eq!(entries.station(2), entry(1, 1));
    assert_eq!(entries.station(3), entry(2, 3));
    assert_eq!(entries.station(4), entry(3, 3));
    assert_eq!(entries.appearance(2, 3), entry(3, 2));
    assert_eq!(entries.appearance(3, 2), entry(2, 2));
    assert_eq!(entries.appearance(3, 3), entry(2, 1));
    assert_eq!(entries.appearance(1, 0), entry(65535, 0));
    assert_eq!(entries.stations_over(2), [3, 4]);
    assert_eq!(entries.appearances_over(2), [(4, 4)]);
    assert_eq!(entries.appearances_over(1), [(2, 3), (3, 2), (4, 4)]);
    assert!(entries.stations_over(3).is_empty());
}

#[test]
fn a_ladder_passes_64_bits() {
    let mut builder = Builder::start();
    let last = builder.ladder(100, 2);
    let entry = builder.entries().station(last[0]);
    assert_eq!((entry.hops, entry.count), (100, 1 << 99));
}

#[test]
fn numbers_over_128_bits_are_held() {
    let mut builder = Builder::start();
    let last = builder.ladder(84, 3);
    let entry = builder.entries().station(last[0]);
    assert_eq!((entry.hops, entry.count), (84, u128::MAX));
    let owned = Owned::built(&builder);
    let (number, _) = outcome(COUNTED, &owned, 0);
    assert_eq!(number, 9);
}

#[test]
fn exact_plans_of_few_bits_are_counted_as_listed() {
    for (bits, turnaround) in [
        (2, 1),
        (3, 1),
        (4, 1),
        (5, 1),
        (2, 2),
        (5, 2),
        (3, 3),
        (4, 16),
    ] {
        let limit = (1 << bits) - 1;
        for exact in exact_plans(bits, turnaround) {
            let owned = Owned::built(&exact.builder);
            let number = assert_alike(limit, &owned, 0);
            assert_eq!(number, exact.number, "{}", exact.label);
        }
    }
}
