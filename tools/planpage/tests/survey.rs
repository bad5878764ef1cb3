//! What the page shows, against document 01's tables for plan A and the plain lister's lists.

use lister::plan::KEPT;
use lister::plans::Owned;
use lister::random::Random;
use planconv::{Names, Record};
use planpage::desk::{Desk, Walk};
use planpage::layered::layered;
use planpage::plan::{Plan, Units};
use planpage::survey::{Listed, Shown, Survey, MOST_INSIDE, MOST_WALKS};

/// Doubled plan A.
const PLAN_A: &[u8] = include_bytes!("../../../tests/plans/a.plan");

fn plan(bytes: &[u8], units: Units) -> Plan {
    Plan::new(bytes.to_vec(), Names::new(), units).unwrap()
}

fn bytes_of(records: &[Record]) -> Vec<u8> {
    let fields = records.iter().flatten();
    fields.flat_map(|field| field.to_be_bytes()).collect()
}

/// The pair of two stations.
fn pair(survey: &Survey, source: usize, destination: usize) -> &Listed {
    let found = survey
        .pairs
        .iter()
        .find(|pair| pair.ends == (source, destination));
    found.unwrap()
}

#[test]
fn plan_a_of_older_units() {
    let survey = Survey::new(&plan(PLAN_A, Units::Older)).unwrap();
    // document 01's lines: station, pairs, load
    let figures = survey.loads.iter().map(|load| (load.pairs, load.load));
    let expected = [
        (0, 0),
        (2, 2_863_311_530),
        (2, 5_726_623_060),
        (4, 17_179_869_184),
        (0, 0),
    ];
    assert!(figures.eq(expected));
    assert_eq!(survey.busiest, 3);
    // P2, P4 as C-16 restates it, P5
    let whole = pair(&survey, 0, 4);
    assert_eq!((whole.pair.hops, whole.pair.count), (3, 3));
    assert_eq!(whole.walks, [[0, 4, 10], [1, 5, 10], [1, 8, 10]]);
    assert_eq!(whole.pair.through, [0, 1, 2, 3, 0]);
    assert_eq!(pair(&survey, 0, 3).pair.count, 3);
    // P6
    assert!(!survey.pairs.iter().any(|pair| pair.ends == (2, 1)));
    assert!(survey.adds_up());
}

#[test]
fn plan_a_of_units_now() {
    let survey = Survey::new(&plan(PLAN_A, Units::Now)).unwrap();
    // document 02, C-20
    let figures = survey.loads.iter().map(|load| (load.pairs, load.load));
    assert!(figures.eq([
        (0, 0),
        (0, 0),
        (1, 4_294_967_296),
        (2, 8_589_934_592),
        (0, 0)
    ]));
    assert!(!survey.pairs.iter().any(|pair| pair.ends == (0, 4)));
}

#[test]
fn accounts_that_are_not_the_loads_are_seen() {
    let mut survey = Survey::new(&plan(PLAN_A, Units::Older)).unwrap();
    survey.loads[3].load += 1;
    assert!(!survey.adds_up());
    survey.loads[3].load -= 1;
    survey.loads[3].pairs += 1;
    assert!(!survey.adds_up());
}

/// The lister's complete list of a pair.
fn complete(plan: &Plan, source: usize, destination: usize) -> Vec<Walk> {
    let owned = Owned {
        bytes: plan.bytes.clone(),
        stations: plan.sizes.stations,
        slots: plan.sizes.slots,
        turnaround: plan.units.turnaround(),
        keeping: KEPT,
    };
    owned.list(source, destination)
}

/// The walks of a list that visit a station between their ends.
fn with_inside(plan: &Plan, list: &[Walk], station: usize) -> Vec<Walk> {
    let visits = |walk: &&Walk| {
        let reached = walk[..walk.len() - 1].iter();
        let mut reached = reached.map(|position| plan.records[usize::from(*position)][2]);
        reached.any(|hearer| usize::from(hearer) == station)
    };
    list.iter().filter(visits).cloned().collect()
}

/// The walks of a station inside a pair.
fn shown(pair: &Listed, shown: &Shown) -> Vec<Walk> {
    match shown {
        Shown::Places(places) => places
            .iter()
            .map(|place| pair.walks[*place].clone())
            .collect(),
        Shown::Apart(walks) => walks.clone(),
    }
}

/// Compares every pair of a survey with the lister; how many stations inside have walks apart.
fn compare(plan: &Plan) -> usize {
    let survey = Survey::new(plan).unwrap();
    assert!(survey.adds_up());
    let n = plan.sizes.stations;
    let mut apart = 0;
    for (source, destination) in (0..n).flat_map(|s| (0..n).map(move |z| (s, z))) {
        if source == destination {
            continue;
        }
        let list = complete(plan, source, destination);
        let found = survey
            .pairs
            .iter()
            .find(|pair| pair.ends == (source, destination));
        let Some(found) = found else {
            assert!(list.is_empty());
            continue;
        };
        assert_eq!(found.pair.count, list.len() as u64);
        assert_eq!(found.walks, list[..list.len().min(MOST_WALKS)]);
        for inside in &found.inside {
            let expected = with_inside(plan, &list, inside.station);
            assert_eq!(inside.through, expected.len() as u64);
            let first = &expected[..expected.len().min(MOST_INSIDE)];
            assert_eq!(shown(found, &inside.shown), first);
            apart += usize::from(matches!(inside.shown, Shown::Apart(_)));
        }
    }
    apart
}

/// A plan of some records between a few stations.
fn generated(random: &mut Random) -> Vec<u8> {
    let (stations, slots) = (random.between(2, 5), random.between(1, 8));
    let mut records: Vec<Record> = (0..random.between(1, 18))
        .map(|_| {
            let sender = random.below(stations);
            let hearer = (sender + random.between(1, stations - 1)) % stations;
            [random.between(1, slots), sender, hearer].map(|field| field as u16)
        })
        .collect();
    records.sort_unstable();
    records.dedup();
    bytes_of(&records)
}

#[test]
fn generated_plans_have_the_listers_walks() {
    let mut random = Random::new(11);
    for _ in 0..300 {
        let bytes = generated(&mut random);
        compare(&plan(&bytes, Units::Now));
        compare(&plan(&bytes, Units::Older));
    }
}

#[test]
fn walks_beyond_the_listed_ones() {
    // layers of two stations; the second of a layer comes late in the complete list
    let mut records: Vec<Record> = Vec::new();
    for layer in 0..8_u16 {
        let (these, next) = ([2 * layer, 2 * layer + 1], [2 * layer + 2, 2 * layer + 3]);
        for (a, b) in these
            .iter()
            .flat_map(|a| next.iter().map(move |b| (*a, *b)))
        {
            records.push([layer + 1, a, b]);
        }
    }
    // 128 walks lead from a station of the first layer to one of the last; none of the first 64 visits station 3
    assert_eq!(compare(&plan(&bytes_of(&records), Units::Older)), 4);
}

#[test]
fn layered_plans_list_the_walks_through_a_station() {
    let mut random = Random::new(12);
    let mut walks = 0;
    for round in 0..2000 {
        let bytes = generated(&mut random);
        let units = [Units::Now, Units::Older][round % 2];
        let plan = plan(&bytes, units);
        let n = plan.sizes.stations;
        for (source, destination) in (0..n).flat_map(|s| (0..n).map(move |z| (s, z))) {
            if source == destination {
                continue;
            }
            let list = complete(&plan, source, destination);
            for station in 0..n {
                let expected = with_inside(&plan, &list, station);
                if expected.is_empty() || [source, destination].contains(&station) {
                    continue;
                }
                let layers = layered(&plan.records, plan.sizes, station);
                let found = layers.walks((source, destination), units, 1000).unwrap();
                assert_eq!(found, expected);
                walks += found.len();
            }
        }
    }
    assert!(walks > 1000, "{walks}");
}

#[test]
fn the_layered_plan_of_station_two_of_plan_a() {
    let plan = plan(&PLAN_A[..24], Units::Older);
    let layers = layered(&plan.records, plan.sizes, 2);
    // slot 1: 0 to 1, 0 to 2, 1 to 0, 2 to 0, of three stations
    let upper = [[1, 3, 4], [1, 3, 5], [1, 4, 3], [1, 5, 3]];
    let lower = [[1, 0, 1], [1, 0, 2], [1, 1, 0], [1, 2, 3]];
    assert_eq!(layers.bytes, bytes_of(&[lower, upper].concat()));
    assert_eq!(layers.down, [0, 1, 2, 3, 0, 1, 2, 3]);
    assert_eq!((layers.sizes.stations, layers.sizes.slots), (6, 1));
}

#[test]
fn changes_are_differences_of_loads() {
    let plan = plan(PLAN_A, Units::Older);
    let survey = Survey::new(&plan).unwrap();
    for (position, struck) in survey.struck.iter().enumerate() {
        let mut bytes = plan.bytes.clone();
        bytes.drain(6 * position..6 * position + 6);
        let without = planpage::plan::call(&bytes, plan.sizes, plan.units);
        let without = Desk::new(without).loads().unwrap();
        let both = without.iter().zip(&survey.loads);
        let changes = both.map(|(without, with)| without.load as i64 - with.load as i64);
        assert!(changes.eq(struck.changes.iter().copied()));
        assert_eq!(struck.number, 0);
    }
}
