//! Properties of all tiny plans, and of plans with turnarounds.

use super::support::{
    lowest_of_the_largest, pairs, shortest_paths, tiny_plans, turned_plans, Owned, DRAWN,
};
use crate::answer::number;
use crate::means::{COUNT_LIMIT, LISTED};
use crate::plans::all_lists;
use crate::shortest::shortest_walks;
use crate::walk::walks_from;
use crate::ways::{Found, Way};

/// The tiny plans and those with turnarounds.
fn plans() -> Vec<Owned> {
    let mut plans = tiny_plans();
    plans.extend(turned_plans());
    plans
}

/// Runs a property on every ordered pair of two stations of every plan.
fn for_all_pairs(property: impl Fn(&Owned, usize, usize)) {
    for owned in plans() {
        for (source, destination) in pairs(owned.stations) {
            property(&owned, source, destination);
        }
    }
}

#[test]
fn number_of_tiny_plans() {
    let one_way = (1 + 1) + (4 + 16 + 64) + (64 + 4096);
    let doubled = 512 + 4096 / 2;
    assert_eq!(tiny_plans().len(), one_way + 2 * DRAWN + doubled);
}

#[test]
fn shortest_walks_are_the_shortest_paths() {
    let mut longer_walks = 0;
    for owned in plans() {
        let plan = owned.plan();
        for source in 0..plan.stations {
            let walks = walks_from(&plan, source);
            longer_walks += walks.iter().filter(|walk| !walk.is_path()).count();
            for station in 0..plan.stations {
                let shortest = shortest_walks(&walks, station);
                assert!(shortest.iter().all(|walk| walk.is_path()), "{owned:?}");
                assert_eq!(shortest, shortest_paths(&walks, station), "{owned:?}");
            }
        }
    }
    assert!(longer_walks > 0);
}

#[test]
fn pair_agrees_with_reach_and_list() {
    for_all_pairs(|owned, source, destination| {
        let values = owned.pair(COUNT_LIMIT, source, destination).unwrap().values;
        let list = owned.list(source, destination);
        let reached = owned.reach(COUNT_LIMIT, source).unwrap();
        let pair = (values.hops, values.count);
        assert_eq!(reached.station(destination), pair, "{owned:?}");
        assert_eq!(list.len() as u64, values.count, "{owned:?}");
        let same_hops = |path: &Vec<u16>| path.len() == usize::from(values.hops);
        assert!(list.iter().all(same_hops), "{owned:?}");
        assert_eq!(list.is_empty(), values.hops == 65535, "{owned:?}");
    });
}

#[test]
fn through_counts_add_up() {
    for_all_pairs(|owned, source, destination| {
        let paired = owned.pair(COUNT_LIMIT, source, destination).unwrap();
        let total: u64 = paired.through.iter().sum();
        let (hops, count) = (u64::from(paired.values.hops), paired.values.count);
        let expected = if count == 0 { 0 } else { count * (hops - 1) };
        assert_eq!(total, expected, "{owned:?}");
        assert!(paired.through.iter().all(|entry| *entry <= count));
        assert_eq!(paired.through[source] + paired.through[destination], 0);
    });
}

#[test]
fn shortest_paths_rise_strictly() {
    for_all_pairs(|owned, source, destination| {
        let list = owned.list(source, destination);
        assert!(list.windows(2).all(|two| two[0] < two[1]), "{owned:?}");
    });
}

#[test]
fn station_is_its_appearances_of_fewest_hops() {
    for owned in plans() {
        for source in 0..owned.stations {
            let reached = owned.reach(COUNT_LIMIT, source).unwrap();
            for station in 0..owned.stations {
                let row = (0..=owned.slots).map(|slot| reached.appearance(station, slot));
                let row: Vec<(u16, u64)> = row.collect();
                let fewest = row.iter().map(|entry| entry.0).min().unwrap();
                let at_fewest = row.iter().filter(|entry| entry.0 == fewest);
                let count = at_fewest.map(|entry| entry.1).sum();
                assert_eq!(reached.station(station), (fewest, count), "{owned:?}");
                let start = if station == source {
                    (0, 1)
                } else {
                    (65535, 0)
                };
                assert_eq!(row[0], start, "{owned:?}");
            }
            assert_eq!(reached.station(source), (0, 1), "{owned:?}");
        }
    }
}

/// Document 01's D and S: the product of the counts, and the sum of through × (D ÷ count).
fn exact_sum(shares: &[(u64, u64)]) -> (u128, u128) {
    let product: u128 = shares.iter().map(|(_, count)| u128::from(*count)).product();
    let part =
        |(through, count): &(u64, u64)| u128::from(*through) * (product / u128::from(*count));
    (product, shares.iter().map(part).sum())
}

/// For each station, through and count of every pair with it interior to some shortest path.
fn shares_of(owned: &Owned) -> Vec<Vec<(u64, u64)>> {
    let mut shares = vec![Vec::new(); owned.stations];
    for (source, destination) in pairs(owned.stations) {
        let paired = owned.pair(COUNT_LIMIT, source, destination).unwrap();
        for (station, through) in paired.through.iter().enumerate() {
            if *through > 0 {
                shares[station].push((*through, paired.values.count));
            }
        }
    }
    shares
}

#[test]
fn loads_within_share_bounds() {
    let mut inexact = 0;
    let mut plans = plans();
    plans.push(Owned::plan_a());
    for owned in plans {
        let loads = owned.loads(COUNT_LIMIT).unwrap();
        for (entry, shares) in loads.iter().zip(shares_of(&owned)) {
            assert_eq!(entry.pairs, shares.len() as u64, "{owned:?}");
            let (product, sum) = exact_sum(&shares);
            let (pairs, load) = (u128::from(entry.pairs), u128::from(entry.load));
            assert!(load * product <= sum << 32, "{owned:?}");
            if pairs == 0 {
                assert_eq!((load, sum), (0, 0), "{owned:?}");
            } else {
                assert!(sum << 32 < (load + pairs) * product, "{owned:?}");
            }
            inexact += u32::from(load * product < sum << 32);
        }
    }
    assert!(inexact > 0);
}

#[test]
fn busiest_is_the_lowest_of_the_largest_loads() {
    let mut tied = 0;
    for owned in plans() {
        let loads = owned.loads(COUNT_LIMIT).unwrap();
        let lowest = lowest_of_the_largest(&loads);
        assert_eq!(owned.busiest(COUNT_LIMIT), Ok(lowest), "{owned:?}");
        let largest = loads[lowest].load;
        let equals = loads.iter().filter(|entry| entry.load == largest);
        tied += usize::from(largest > 0 && equals.count() > 1);
    }
    assert!(tied > 500, "{tied}");
}

/// Document 01's "leads home": the positions begin some shortest path of the pair.
fn leads_home(list: &[Vec<u16>], positions: &[u16]) -> bool {
    list.iter().any(|path| path.starts_with(positions))
}

/// The first position from `from` on that leads home behind the given positions.
fn next_home(list: &[Vec<u16>], before: &[u16], from: u16, contacts: u16) -> Option<u16> {
    (from..contacts).find(|position| leads_home(list, &[before, &[*position]].concat()))
}

/// The path after a given one, by document 01's rule of advancing legs.
fn advanced(list: &[Vec<u16>], path: &[u16], contacts: u16) -> Option<Vec<u16>> {
    for hop in (0..path.len()).rev() {
        let before = &path[..hop];
        if let Some(position) = next_home(list, before, path[hop] + 1, contacts) {
            let mut next = [before, &[position]].concat();
            while next.len() < path.len() {
                let earliest = next_home(list, &next, 0, contacts);
                next.push(earliest.unwrap());
            }
            return Some(next);
        }
    }
    None
}

#[test]
fn next_way_follows_the_rule_of_advancing() {
    for_all_pairs(|owned, source, destination| {
        let list = owned.list(source, destination);
        let contacts = owned.plan().contacts.len() as u16;
        for (place, path) in list.iter().enumerate() {
            let next = advanced(&list, path, contacts);
            assert_eq!(next.as_ref(), list.get(place + 1), "{owned:?}");
        }
    });
}

#[test]
fn first_and_next_way_give_the_list() {
    for_all_pairs(|owned, source, destination| {
        let input = owned.input();
        let list = owned.list(source, destination);
        let mut buffer = vec![60000; owned.slots + 2];
        let mut scratch = vec![9; owned.scratch_length()];
        let ends = (source, destination);
        let mut answer = LISTED.way(Way::First, input, ends, &mut buffer, &mut scratch);
        for path in &list {
            assert_eq!(answer, Ok(Found::Walk(path.len() as u16)), "{owned:?}");
            assert!(buffer.starts_with(path), "{owned:?}");
            assert!(buffer[path.len()..].iter().all(|entry| *entry == 60000));
            answer = LISTED.way(Way::Next, input, ends, &mut buffer, &mut scratch);
        }
        if list.is_empty() {
            assert_eq!(answer, Ok(Found::NoWalk), "{owned:?}");
            let next = LISTED.way(Way::Next, input, ends, &mut buffer, &mut scratch);
            assert_eq!(number(&next), 10, "{owned:?}");
            assert!(buffer.iter().all(|entry| *entry == 60000));
        } else {
            assert_eq!(answer, Ok(Found::Last), "{owned:?}");
        }
    });
}

#[test]
fn next_way_takes_the_shortest_paths_alone() {
    let owned = Owned::plan_a();
    let list = owned.list(0, 4);
    let mut accepted = Vec::new();
    for offered in all_lists(3, 13) {
        let mut buffer = [offered.as_slice(), &[65535]].concat();
        let mut scratch = vec![9; owned.scratch_length()];
        let input = owned.input();
        let answer = LISTED.way(Way::Next, input, (0, 4), &mut buffer, &mut scratch);
        assert!(scratch.iter().all(|entry| *entry == 0));
        match number(&answer) {
            0 => accepted.push(offered),
            refusal => assert_eq!((refusal, &buffer[..3]), (10, offered.as_slice())),
        }
    }
    assert_eq!(accepted, list);
}
