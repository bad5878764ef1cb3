//! First way and next way by numbers of walks, compared with the plain lister and ladders.

use super::support::{
    pairs, random_plan, random_turned_plan, small_exact_plans, stale_plans, tiny_plans,
    turned_plans, Owned,
};
use crate::answer::{number, Answer};
use crate::means::{Means, COUNTED, COUNT_LIMIT, LISTED};
use crate::plan::Ends;
use crate::random::Random;
use crate::reach_cases::{ladder, sent_ladder, Builder};
use crate::traces::contents;
use crate::way_cases::{ladder_path, sent_ladder_path};
use crate::ways::{Found, Way};

/// Answer, buffer and scratch of a call; two entries more than named are lent of the scratch.
fn outcome(
    means: Means,
    way: Way,
    owned: &Owned,
    ends: Ends,
    offered: &[u16],
) -> (Answer<Found>, Vec<u16>, Vec<u64>) {
    let mut buffer = offered.to_vec();
    let mut scratch = vec![77; owned.scratch_length() + 2];
    let answer = means.way(way, owned.input(), ends, &mut buffer, &mut scratch);
    (answer, buffer, scratch)
}

/// Asserts that both operations answer alike on a buffer; gives the number of next way.
fn assert_alike(limit: u64, owned: &Owned, ends: Ends, offered: &[u16]) -> u8 {
    let [_, next] = [Way::First, Way::Next].map(|way| {
        let listed = outcome(LISTED.within(limit), way, owned, ends, offered);
        let counted = outcome(COUNTED.within(limit), way, owned, ends, offered);
        assert_eq!(listed, counted, "{way:?}, {limit}, {ends:?}, {owned:?}");
        number(&listed.0)
    });
    next
}

#[test]
fn every_path_of_tiny_plans_is_followed_alike() {
    let offered = [tiny_plans(), turned_plans(), stale_plans()].map(paths_followed_alike);
    assert!(offered[0] > 50_000 && offered[1] > 10_000, "{offered:?}");
    assert!(offered[2] > 10_000, "{offered:?}");
}

/// Asserts that both means give the same path after each path of each pair; gives how many paths there are.
fn paths_followed_alike(plans: Vec<Owned>) -> usize {
    let mut offered = 0;
    for owned in plans {
        for ends in pairs(owned.stations) {
            for path in owned.list(ends.0, ends.1) {
                let mut buffer = vec![60000; owned.slots + 1];
                buffer[..path.len()].copy_from_slice(&path);
                assert_eq!(assert_alike(COUNT_LIMIT, &owned, ends, &buffer), 0);
                offered += 1;
            }
            let buffer = vec![0; owned.slots];
            assert_alike(COUNT_LIMIT, &owned, ends, &buffer);
        }
    }
    offered
}

#[test]
fn random_contents_are_answered_alike() {
    let mut random = Random::new(11);
    let mut seen = [0; 11];
    for round in 0..600 {
        let owned = match round % 3 {
            0 => random_turned_plan(&mut random),
            _ => random_plan(&mut random),
        };
        let limit = [1, 3, 9, COUNT_LIMIT, COUNT_LIMIT][random.below(5)];
        for ends in pairs(owned.stations) {
            let list = owned.list(ends.0, ends.1);
            let offered = contents(&mut random, &list, owned.slots);
            seen[usize::from(assert_alike(limit, &owned, ends, &offered))] += 1;
        }
    }
    let often = |number: usize| seen[number] > 500;
    assert!(often(0) && often(9) && often(10), "{seen:?}");
}

#[test]
fn exact_plans_of_few_bits_are_answered_alike() {
    let plans = [1, 2, 3].map(|turnaround| small_exact_plans(3, turnaround));
    for (exact, owned) in plans.concat() {
        for destination in 1..owned.stations {
            let offered = vec![1; owned.slots];
            let next = assert_alike(7, &owned, (0, destination), &offered);
            assert_eq!(next == 9, exact.number == 9, "{}", exact.label);
        }
    }
}

#[test]
fn refused_calls_are_answered_alike() {
    let owned = Owned::plan_a();
    let next = |owned: &Owned, ends, length| {
        let offered = vec![5; length];
        assert_alike(COUNT_LIMIT, owned, ends, &offered)
    };
    assert_eq!(next(&owned, (5, 5), 3), 6);
    assert_eq!(next(&owned, (4, 4), 3), 7);
    assert_eq!(next(&owned, (0, 4), 3), 8);
    assert_eq!(next(&owned, (0, 4), 4), 10);
    let turned = owned.clone().turning(17);
    assert_eq!(next(&turned, (5, 5), 3), 12);
    let long = owned.clone().keeping_for(256);
    assert_eq!(next(&long, (5, 5), 3), 14);
    let few_slots = Owned { slots: 3, ..owned };
    assert_eq!(next(&few_slots, (5, 5), 3), 3);
}

/// Asserts that a ladder of 64 layers has these paths, by their indices, to the first of its last two.
fn assert_ladder(ladder: &Builder, path: fn(usize, usize, u64) -> Vec<u16>) {
    let owned = Owned::built(ladder);
    let answer = |way: Way, offered: &[u16]| {
        let (answer, buffer, _) = outcome(COUNTED, way, &owned, (0, 127), offered);
        (answer, buffer)
    };
    let given = |index: u64| (Ok(Found::Walk(64)), path(64, 0, index));
    assert_eq!(answer(Way::First, &[9; 64]), given(0));
    let (half, end) = (1 << 62, (1 << 63) - 1);
    for index in [0, 1, 2, 12345, half - 1, half, end - 1] {
        assert_eq!(answer(Way::Next, &path(64, 0, index)), given(index + 1));
    }
    let last = path(64, 0, end);
    assert_eq!(answer(Way::Next, &last), (Ok(Found::Last), last));
}

#[test]
fn paths_of_ladders() {
    assert_ladder(&ladder(64, 2), ladder_path);
    assert_ladder(&sent_ladder(64, 2), sent_ladder_path);
}
