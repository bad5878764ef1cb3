//! Pair, foremost, loads, partial loads and busiest by numbers of walks, compared with the plain lister and closed
//! forms.

use std::fmt::Debug;

use super::support::{
    lowest_of_the_largest, pairs, random_plan, random_turned_plan, small_exact_plans, stale_plans,
    tiny_plans, turned_plans, Owned,
};
use crate::answer::{number, Answer};
use crate::cases::plan_bytes;
use crate::foremost::ForemostValues;
use crate::loads::Load;
use crate::means::{Means, COUNTED, COUNT_LIMIT, LISTED};
use crate::pair::PairValues;
use crate::plan::Ends;
use crate::random::Random;
use crate::reach_cases::{self, Builder};

/// Two tables of a plan's stations and a scratch, lent with so many entries more or fewer.
type Lengths = [isize; 3];

/// Two entries behind each named part.
const LONGER: Lengths = [2; 3];

/// Memory of the named lengths, changed as asked, marked with 77.
fn lend(owned: &Owned, change: Lengths) -> [Vec<u64>; 3] {
    let named = [owned.stations, owned.stations, owned.scratch_length()];
    let lent = |table: usize| vec![77; named[table].saturating_add_signed(change[table])];
    [0, 1, 2].map(lent)
}

/// An answer, and the memory after the call.
type Asked<V> = (Answer<V>, [Vec<u64>; 3]);

/// Pair of two ends.
fn paired(means: Means, owned: &Owned, ends: Ends, change: Lengths) -> Asked<PairValues> {
    let mut lent = lend(owned, change);
    let [through, _, scratch] = &mut lent;
    let answer = means.pair(owned.input(), ends, through, scratch);
    (answer, lent)
}

/// Foremost of two ends.
fn foremost(means: Means, owned: &Owned, ends: Ends, change: Lengths) -> Asked<ForemostValues> {
    let mut lent = lend(owned, change);
    let [through, _, scratch] = &mut lent;
    let answer = means.foremost(owned.input(), ends, through, scratch);
    (answer, lent)
}

/// Asserts that an operation on a pair is counted as listed, and gives the number.
fn assert_same<V: Debug + PartialEq>(
    operation: fn(Means, &Owned, Ends, Lengths) -> Asked<V>,
    limit: u64,
    owned: &Owned,
    ends: Ends,
    change: Lengths,
) -> u8 {
    let asked = |means: Means| operation(means.within(limit), owned, ends, change);
    let listed = asked(LISTED);
    let counted = asked(COUNTED);
    assert_eq!(listed, counted, "limit {limit}, {ends:?}, {owned:?}");
    number(&listed.0)
}

/// Loads.
fn loaded(means: Means, owned: &Owned, change: Lengths) -> Asked<()> {
    let mut lent = lend(owned, change);
    let [pairs, sums, scratch] = &mut lent;
    let answer = means.loads(owned.input(), pairs, sums, scratch);
    (answer, lent)
}

/// Partial loads of so many sources.
fn partial(means: Means, owned: &Owned, sources: usize, change: Lengths) -> Asked<()> {
    let mut lent = lend(owned, change);
    let [pairs, sums, scratch] = &mut lent;
    let answer = means.partial_loads(owned.input(), sources, pairs, sums, scratch);
    (answer, lent)
}

/// Asserts that both loads, both partial loads of every number of sources and both busiest agree, and gives
/// the number of loads.
fn assert_loads(limit: u64, owned: &Owned, change: Lengths) -> u8 {
    let (lister, counter) = (LISTED.within(limit), COUNTED.within(limit));
    let listed = loaded(lister, owned, change);
    let counted = loaded(counter, owned, change);
    assert_eq!(listed, counted, "limit {limit}, {owned:?}");
    for sources in 0..=owned.stations + 1 {
        let listed = partial(lister, owned, sources, change);
        let counted = partial(counter, owned, sources, change);
        assert_eq!(listed, counted, "limit {limit}, k {sources}, {owned:?}");
    }
    let input = owned.input();
    let [[_, _, mut one], [_, _, mut other]] = [0; 2].map(|_| lend(owned, change));
    let busiest = lister.busiest(input, &mut one);
    let counted = counter.busiest(input, &mut other);
    assert_eq!(busiest, counted, "limit {limit}, {owned:?}");
    assert_eq!(one, other, "limit {limit}, {owned:?}");
    number(&listed.0)
}

/// Asserts agreement on every pair and of the loads; adds up the numbers 9 of pair, loads and foremost.
fn assert_alike(limit: u64, owned: &Owned, refused: &mut [usize; 3]) {
    for ends in pairs(owned.stations) {
        let pair = assert_same(paired, limit, owned, ends, LONGER);
        let foremost = assert_same(foremost, limit, owned, ends, LONGER);
        refused[0] += usize::from(pair == 9);
        refused[2] += usize::from(foremost == 9);
    }
    refused[1] += usize::from(assert_loads(limit, owned, LONGER) == 9);
}

#[test]
fn tiny_plans_are_counted_as_listed() {
    let mut refused = [0; 3];
    for owned in tiny_plans() {
        for limit in [1, 2, COUNT_LIMIT] {
            assert_alike(limit, &owned, &mut refused);
        }
    }
    assert!(refused.iter().all(|count| *count > 1000), "{refused:?}");
}

#[test]
fn plans_with_turnarounds_are_counted_as_listed() {
    let mut refused = [0; 3];
    for (index, owned) in turned_plans().iter().enumerate() {
        let limit = [1, 2, COUNT_LIMIT][index % 3];
        assert_alike(limit, owned, &mut refused);
    }
    assert!(refused.iter().all(|count| *count > 500), "{refused:?}");
}

#[test]
fn plans_that_drop_readings_are_counted_as_listed() {
    let mut refused = [0; 3];
    for (index, owned) in stale_plans().iter().enumerate() {
        let limit = [1, 2, COUNT_LIMIT][index % 3];
        assert_alike(limit, owned, &mut refused);
    }
    assert!(refused.iter().all(|count| *count > 500), "{refused:?}");
}

#[test]
fn random_plans_are_counted_as_listed() {
    let mut random = Random::new(10);
    let mut refused = [0; 3];
    for round in 0..1000 {
        let owned = match round % 3 {
            0 => random_turned_plan(&mut random),
            _ => random_plan(&mut random),
        };
        let limit = [1, 2, 3, 5, 9, COUNT_LIMIT][random.below(6)];
        assert_alike(limit, &owned, &mut refused);
    }
    assert!(refused[0] > 2000 && refused[2] > 1000, "{refused:?}");
    assert!((150..500).contains(&refused[1]), "{refused:?}");
}

#[test]
fn exact_plans_of_few_bits_are_counted_as_listed() {
    for (bits, turnaround) in [(2, 1), (3, 1), (4, 1), (2, 2), (3, 2), (3, 5)] {
        let limit = (1 << bits) - 1;
        for (exact, owned) in small_exact_plans(bits, turnaround) {
            for destination in 1..owned.stations {
                let ends = (0, destination);
                let number = assert_same(paired, limit, &owned, ends, LONGER);
                assert_eq!(number, exact.number, "{}", exact.label);
                let number = assert_same(foremost, limit, &owned, ends, LONGER);
                assert_eq!(number, exact.of_appearances, "{}", exact.label);
            }
            assert_loads(limit, &owned, LONGER);
        }
    }
}

#[test]
fn refused_calls_are_answered_alike() {
    let owned = Owned::plan_a();
    let pair = |owned: &Owned, ends, change| {
        let number = assert_same(paired, COUNT_LIMIT, owned, ends, change);
        let foremost = assert_same(foremost, COUNT_LIMIT, owned, ends, change);
        assert_eq!(foremost, number);
        number
    };
    let loads = |owned: &Owned, change| assert_loads(COUNT_LIMIT, owned, change);
    assert_eq!(pair(&owned, (5, 5), [-1; 3]), 6);
    assert_eq!(pair(&owned, (0, 5), LONGER), 6);
    assert_eq!(pair(&owned, (2, 2), [-1; 3]), 7);
    for table in [0, 2] {
        let mut change = LONGER;
        change[table] = -1;
        assert_eq!(pair(&owned, (0, 4), change), 8);
    }
    for table in 0..3 {
        let mut change = LONGER;
        change[table] = -1;
        assert_eq!(loads(&owned, change), 8);
    }
    let few_stations = Owned {
        stations: 4,
        ..owned.clone()
    };
    let few_slots = Owned {
        slots: 3,
        ..owned.clone()
    };
    let repeated = Owned {
        bytes: plan_bytes(&[(1, 0, 1), (1, 0, 1)]),
        ..owned.clone()
    };
    let cut = Owned {
        bytes: owned.bytes[1..].to_vec(),
        ..owned.clone()
    };
    let turned = owned.clone().turning(0);
    let no_stations = Owned {
        stations: 0,
        ..owned
    };
    for (owned, number) in [
        (no_stations, 1),
        (cut, 2),
        (few_slots, 3),
        (few_stations, 4),
        (repeated, 5),
        (turned, 12),
    ] {
        assert_eq!(pair(&owned, (9, 9), [-1; 3]), number);
        assert_eq!(loads(&owned, [-1; 3]), number);
    }
}

/// A ladder's plan.
fn ladder(layers: usize, width: usize) -> Owned {
    Owned::built(&reach_cases::ladder(layers, width))
}

/// Values and through counts of a pair, or the number.
fn pair(owned: &Owned, source: usize, destination: usize) -> Result<(PairValues, Vec<u64>), u8> {
    let ends = (source, destination);
    let (answer, [mut through, _, scratch]) = paired(COUNTED, owned, ends, [0; 3]);
    assert!(scratch.iter().all(|entry| *entry == 0));
    through.truncate(owned.stations);
    let values = answer.map_err(|refusal| refusal.number())?;
    Ok((values, through))
}

/// Pairs and load of each station, or the number.
fn loads(owned: &Owned) -> Result<Vec<Load>, u8> {
    given(loaded(COUNTED, owned, [0; 3]))
}

/// The same of the pairs from so many sources.
fn loads_from(owned: &Owned, sources: usize) -> Result<Vec<Load>, u8> {
    given(partial(COUNTED, owned, sources, [0; 3]))
}

/// Pairs and load of each station after a call, or the number.
fn given((answer, [pairs, sums, _]): Asked<()>) -> Result<Vec<Load>, u8> {
    answer.map_err(|refusal| refusal.number())?;
    let entry = |(pairs, load)| Load { pairs, load };
    Ok(pairs.into_iter().zip(sums).map(entry).collect())
}

/// The layer of a station of a ladder; the source is layer 0.
fn layer(width: usize, station: usize) -> usize {
    station.div_ceil(width)
}

#[test]
fn pairs_of_ladders() {
    for (layers, width) in [(5, 2), (64, 2), (41, 3), (32, 4), (23, 7)] {
        let owned = ladder(layers, width);
        let last = owned.stations - 1;
        for source in [0, 1, 1 + width, 1 + 2 * width] {
            let from = layer(width, source);
            let count = |hops: usize| (width as u64).pow(hops as u32 - 1);
            let hops = layers - from;
            let (values, through) = pair(&owned, source, last).unwrap();
            assert_eq!((values.hops, values.count), (hops as u16, count(hops)));
            for (station, entry) in through.iter().enumerate() {
                let interior = (from + 1..layers).contains(&layer(width, station));
                let expected = if interior { count(hops - 1) } else { 0 };
                assert_eq!(*entry, expected, "{layers} {width} {source} {station}");
            }
        }
        let (values, through) = pair(&owned, last, 0).unwrap();
        assert_eq!((values.hops, values.count), (65535, 0));
        assert!(through.iter().all(|entry| *entry == 0));
    }
}

/// Pairs and load of a station of a ladder from so many sources: those in the layers before it.
fn load_of_ladder(layers: usize, width: usize, station: usize, sources: usize) -> Load {
    let at = layer(width, station);
    let before = 1 + width * at.saturating_sub(1);
    let pairs = if at == 0 {
        0
    } else {
        before.min(sources) * width * (layers - at)
    } as u64;
    let load = pairs * ((1 << 32) / width as u64);
    Load { pairs, load }
}

#[test]
fn loads_of_ladders() {
    for (layers, width) in [(5, 2), (64, 2), (41, 3), (32, 4), (23, 7)] {
        let owned = ladder(layers, width);
        let of_ladder = |sources| {
            let load = move |station| load_of_ladder(layers, width, station, sources);
            (0..owned.stations).map(load).collect::<Vec<Load>>()
        };
        let loads = loads(&owned).unwrap();
        assert_eq!(loads, of_ladder(owned.stations), "{layers} {width}");
        for sources in [0, 1, 2, width + 1, owned.stations / 2, owned.stations - 1] {
            let partial = loads_from(&owned, sources);
            assert_eq!(partial, Ok(of_ladder(sources)), "{layers} {width}");
        }
        let mut scratch = vec![7; owned.scratch_length()];
        let busiest = COUNTED.busiest(owned.input(), &mut scratch);
        assert_eq!(busiest, Ok(lowest_of_the_largest(&loads)));
    }
}

#[test]
fn ladders_with_too_many_walks() {
    let owned = ladder(65, 2);
    assert_eq!(pair(&owned, 0, 1), Err(9));
    assert_eq!(pair(&owned, 1, 130).unwrap().0.count, 1 << 63);
    assert_eq!(loads(&owned), Err(9));
    assert_eq!(loads(&ladder(84, 3)), Err(9));
}

/// The source alone has too many: sources below it are accepted, and with it none is.
#[test]
fn sources_before_one_with_too_many_walks() {
    for source in [0, 1, 64, 129, 130] {
        let owned = Owned::built(&reach_cases::ladder(65, 2).with_source(source));
        for sources in [0, source.saturating_sub(1), source] {
            assert!(loads_from(&owned, sources).is_ok(), "{source} {sources}");
        }
        for sources in [source + 1, 131] {
            assert_eq!(loads_from(&owned, sources), Err(9), "{source} {sources}");
        }
        assert_eq!(loads_from(&owned, 132), Err(13));
    }
}

#[test]
fn a_single_path_beside_a_ladder() {
    let mut builder = Builder::start();
    let last = builder.ladder(40, 2);
    let (mut before, mut single) = (0, Vec::new());
    for slot in 1..=40 {
        single.push(builder.station());
        builder.meet(slot, before, single[slot - 1]);
        before = single[slot - 1];
    }
    let end = builder.station();
    builder.meet_all(41, end, &last);
    builder.meet(41, end, before);
    let owned = Owned::built(&builder);
    let (values, through) = pair(&owned, 0, end).unwrap();
    assert_eq!((values.hops, values.count), (41, (1 << 40) + 1));
    assert!((1..=80).all(|station| through[station] == 1 << 39));
    assert!(single.iter().all(|station| through[*station] == 1));
    let loads = loads(&owned).unwrap();
    let after = |at: usize| 40 - at as u64;
    for (at, station) in single.iter().enumerate() {
        let pairs = (at as u64 + 1) * after(at);
        let load = (pairs - 1) << 32;
        assert_eq!(loads[*station], Load { pairs, load }, "{at}");
    }
}

/// A row of stations with as many slots between two: every path passes all of them.
#[test]
fn rows_of_stations() {
    let mut builder = Builder::start();
    let last = builder.slot_ladder(31, 4);
    let owned = Owned::built(&builder);
    let (values, through) = pair(&owned, 0, last).unwrap();
    assert_eq!((values.hops, values.count), (31, 1 << 62));
    assert_eq!(through[1..last], vec![1 << 62; 30]);
    assert_eq!((through[0], through[last]), (0, 0));
    for (station, entry) in loads(&owned).unwrap().iter().enumerate() {
        let pairs = (station * (last - station)) as u64;
        let load = pairs << 32;
        assert_eq!(*entry, Load { pairs, load }, "{station}");
    }
}
