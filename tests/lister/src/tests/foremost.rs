//! Foremost by the plain lister: plan A, the definition on tiny plans, and cause 9 of appearances alone.

use super::support::{pairs, random_plan, random_turned_plan, tiny_plans, turned_plans, Owned};
use crate::answer::number;
use crate::foremost::ForemostValues;
use crate::means::{COUNT_LIMIT, LISTED};
use crate::plan::Ends;
use crate::random::Random;
use crate::shortest::{foremost_walks, positions_of};
use crate::show::{foremost_text, text_of};
use crate::walk::{walks_from, Walk};

/// Slot, hops and count of a pair.
fn values(owned: &Owned, ends: Ends) -> (u16, u16, u64) {
    let ForemostValues { slot, hops, count } = owned.foremost(COUNT_LIMIT, ends).unwrap().values;
    (slot, hops, count)
}

#[test]
fn pairs_of_plan_a() {
    let owned = Owned::plan_a();
    let through = |ends| owned.foremost(COUNT_LIMIT, ends).unwrap().through;
    assert_eq!(values(&owned, (0, 3)), (2, 2, 2));
    assert_eq!(through((0, 3)), [0, 1, 1, 0, 0]);
    assert_eq!(values(&owned, (0, 4)), (4, 3, 3));
    assert_eq!(through((0, 4)), [0, 1, 2, 3, 0]);
    assert_eq!(values(&owned, (0, 2)), (1, 1, 1));
    assert_eq!(values(&owned, (3, 4)), (4, 1, 1));
    assert_eq!(values(&owned, (2, 1)), (65535, 65535, 0));
    assert_eq!(through((2, 1)), [0; 5]);
}

#[test]
fn earliest_before_fewest_hops() {
    let owned = Owned::doubled(3, 3, &[(1, 0, 1), (2, 1, 2), (3, 0, 2)]);
    assert_eq!(values(&owned, (0, 2)), (2, 2, 1));
    assert_eq!(owned.pair(COUNT_LIMIT, 0, 2).unwrap().values.hops, 1);
    assert_eq!(
        owned.foremost(COUNT_LIMIT, (0, 2)).unwrap().through,
        [0, 1, 0]
    );
}

#[test]
fn fewest_hops_in_the_earliest_slot() {
    let records = [(1, 0, 1), (2, 1, 2), (3, 1, 3), (3, 2, 3), (4, 0, 3)];
    let owned = Owned::doubled(4, 4, &records);
    assert_eq!(values(&owned, (0, 3)), (3, 2, 1));
    assert_eq!(
        owned.foremost(COUNT_LIMIT, (0, 3)).unwrap().through,
        [0, 1, 0, 0]
    );
}

/// The tiny plans, those with turnarounds, and drawn ones with more slots.
fn plans() -> Vec<Owned> {
    let mut random = Random::new(15);
    let mut plans = tiny_plans();
    plans.extend(turned_plans());
    plans.extend((0..300).map(|_| random_plan(&mut random)));
    plans
}

/// Document 000's Definition 11 on a list of walks, in the order of positions: of the paths to the
/// destination those that arrive no later than any other, and of these the ones with no more hops than
/// any other.
fn defined(walks: &[Walk], destination: usize) -> Vec<&Walk> {
    let paths = walks.iter();
    let paths: Vec<&Walk> = paths
        .filter(|walk| walk.is_path() && walk.end() == destination)
        .collect();
    let no_later = |path: &&&Walk| paths.iter().all(|other| path.slot <= other.slot);
    let foremost: Vec<&Walk> = paths.iter().filter(no_later).copied().collect();
    let no_longer = |path: &&&Walk| foremost.iter().all(|other| path.hops() <= other.hops());
    let mut shortest: Vec<&Walk> = foremost.iter().filter(no_longer).copied().collect();
    shortest.sort_by_key(|path| &path.positions);
    shortest
}

#[test]
fn foremost_walks_are_the_definitions_paths() {
    let mut seen = [0; 3];
    for owned in plans() {
        let plan = owned.plan();
        for (source, destination) in pairs(owned.stations) {
            let walks = walks_from(&plan, source);
            let listed = foremost_walks(&walks, destination);
            assert_eq!(listed, defined(&walks, destination), "{owned:?}");
            let Some(first) = listed.first() else {
                assert!(walks.iter().all(|walk| walk.end() != destination));
                continue;
            };
            let to = walks.iter().filter(|walk| walk.end() == destination);
            assert!(to.clone().all(|walk| first.slot <= walk.slot), "{owned:?}");
            let then: Vec<&Walk> = to.filter(|walk| walk.slot == first.slot).collect();
            seen[0] += usize::from(then.iter().any(|walk| walk.hops() > first.hops()));
            seen[1] += usize::from(then.iter().any(|walk| !walk.is_path()));
            seen[2] += usize::from(listed.len() > 1);
        }
    }
    assert!(seen.iter().all(|count| *count > 100), "{seen:?}");
}

#[test]
fn foremost_and_pair() {
    let mut seen = [0; 4];
    for owned in plans() {
        for ends in pairs(owned.stations) {
            let foremost = owned.foremost(COUNT_LIMIT, ends).unwrap();
            let pair = owned.pair(COUNT_LIMIT, ends.0, ends.1).unwrap();
            let ForemostValues { slot, hops, count } = foremost.values;
            assert!(hops >= pair.values.hops, "{owned:?}");
            assert_eq!(count == 0, pair.values.count == 0, "{owned:?}");
            assert_eq!((slot == 65535, hops == 65535), (count == 0, count == 0));
            let total: u64 = foremost.through.iter().sum();
            let inner = if count == 0 { 0 } else { u64::from(hops) - 1 };
            assert_eq!(total, count * inner, "{owned:?}");
            if hops == pair.values.hops {
                let walks = walks_from(&owned.plan(), ends.0);
                let list = owned.list(ends.0, ends.1);
                let foremost = positions_of(&foremost_walks(&walks, ends.1));
                assert!(foremost.iter().all(|path| list.contains(path)), "{owned:?}");
                seen[0] += usize::from(count > 0 && count < pair.values.count);
                seen[1] += usize::from(count > 0 && count == pair.values.count);
            }
            seen[2] += usize::from(count > 0 && hops > pair.values.hops);
            seen[3] += usize::from(count == 0);
        }
    }
    assert!(seen.iter().all(|count| *count > 200), "{seen:?}");
}

#[test]
fn a_stations_sum_is_no_cause() {
    let owned = Owned::doubled(2, 3, &[(1, 0, 1), (2, 0, 1), (3, 0, 1)]);
    assert_eq!(number(&owned.pair(2, 0, 1)), 9);
    let foremost = owned.foremost(2, (0, 1)).unwrap();
    let ForemostValues { slot, hops, count } = foremost.values;
    assert_eq!((slot, hops, count), (1, 1, 1));
}

#[test]
fn appearances_after_the_arrival_are_a_cause() {
    let records = [(1, 0, 1), (1, 0, 2), (1, 0, 3), (2, 1, 3), (2, 2, 3)];
    let owned = Owned::doubled(4, 2, &records);
    assert_eq!(values(&owned, (0, 3)), (1, 1, 1));
    assert_eq!(
        owned.reach(COUNT_LIMIT, 0).unwrap().appearance(3, 2),
        (2, 2)
    );
    for destination in 1..4 {
        assert!(owned.foremost(2, (0, destination)).is_ok());
        assert_eq!(number(&owned.foremost(1, (0, destination))), 9);
    }
    assert!(owned.foremost(1, (3, 0)).is_ok());
}

#[test]
fn nine_is_a_count_of_some_appearance_over_the_limit() {
    let mut random = Random::new(14);
    let mut seen = [0; 3];
    for round in 0..400 {
        let owned = match round % 4 {
            0 => random_turned_plan(&mut random),
            _ => random_plan(&mut random),
        };
        let limit = random.between(1, 4) as u64;
        for source in 0..owned.stations {
            let reached = owned.reach(COUNT_LIMIT, source).unwrap();
            let counts = |station| (0..=owned.slots).map(move |slot| (station, slot));
            let over = (0..owned.stations)
                .flat_map(counts)
                .any(|(station, slot)| reached.appearance(station, slot).1 > limit);
            let destination = (source + 1) % owned.stations;
            let answer = number(&owned.foremost(limit, (source, destination)));
            assert_eq!(answer, if over { 9 } else { 0 }, "{owned:?}");
            let pair = number(&owned.pair(limit, source, destination));
            assert!(pair >= answer, "{owned:?}");
            seen[0] += usize::from(over);
            seen[1] += usize::from(answer < pair);
            seen[2] += usize::from(pair == 0);
        }
    }
    assert!(seen.iter().all(|count| *count > 50), "{seen:?}");
}

#[test]
fn shown_foremost() {
    let owned = Owned::plan_a();
    let shown = |ends| text_of(foremost_text(owned.input(), ends));
    let text = "slot 2\nhops 2\ncount 2\nthrough 0 1 1 0 0\npath 0 4\npath 1 5\n";
    assert_eq!(shown((0, 3)), text);
    let none = "slot 65535\nhops 65535\ncount 0\nthrough 0 0 0 0 0\n";
    assert_eq!(shown((2, 1)), none);
    assert_eq!(shown((5, 5)), "refused 6\n");
    assert_eq!(shown((3, 3)), "refused 7\n");
    let turned = owned.clone().turning(2);
    let shown = text_of(foremost_text(turned.input(), (0, 3)));
    let text = "slot 3\nhops 2\ncount 1\nthrough 0 0 1 0 0\npath 1 8\n";
    assert_eq!(shown, text);
}

#[test]
fn refused_calls_leave_or_clear_what_is_lent() {
    let owned = Owned::plan_a();
    let asked = |limit: u64, ends, entries: usize| {
        let (mut through, mut scratch) = (vec![7; 6], vec![7; entries]);
        let listed = LISTED.within(limit);
        let answer = listed.foremost(owned.input(), ends, &mut through, &mut scratch);
        (number(&answer), through, scratch)
    };
    assert_eq!(asked(2, (3, 3), 102), (7, vec![7; 6], vec![7; 102]));
    assert_eq!(asked(2, (0, 4), 99), (8, vec![7; 6], vec![7; 99]));
    let cleared = |named: usize, length: usize| [vec![0; named], vec![7; length - named]].concat();
    assert_eq!(asked(2, (0, 4), 102), (9, cleared(5, 6), cleared(100, 102)));
    assert_eq!(asked(3, (2, 1), 102), (0, cleared(5, 6), cleared(100, 102)));
}
