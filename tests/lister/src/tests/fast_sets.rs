//! Through set by numbers of walks, compared with the plain lister and closed forms.

use super::support::{
    pairs, random_plan, random_turned_plan, small_exact_plans, stale_plans, tiny_plans,
    turned_plans, Owned,
};
use crate::answer::{number, Answer};
use crate::means::{Means, COUNTED, COUNT_LIMIT, LISTED};
use crate::plan::Ends;
use crate::random::Random;
use crate::reach_cases;
use crate::set_cases::all_sets;
use crate::sets::set_of;

/// The answer, and the scratch after the call, lent with so many entries more or fewer.
fn asked(
    means: Means,
    owned: &Owned,
    ends: Ends,
    set: &[u8],
    change: isize,
) -> (Answer<u64>, Vec<u64>) {
    let length = owned.scratch_length().saturating_add_signed(change);
    let mut scratch = vec![77; length];
    let answer = means.through_set(owned.input(), ends, set, &mut scratch);
    (answer, scratch)
}

/// Asserts that both answer alike, and gives the answer.
fn alike(limit: u64, owned: &Owned, ends: Ends, set: &[u8], change: isize) -> Answer<u64> {
    let listed = asked(LISTED.within(limit), owned, ends, set, change);
    let counted = asked(COUNTED.within(limit), owned, ends, set, change);
    assert_eq!(
        listed, counted,
        "limit {limit}, {ends:?}, {set:?}, {owned:?}"
    );
    listed.0
}

#[test]
fn tiny_plans_are_counted_as_listed() {
    let mut refused = 0;
    let mut touched = 0;
    for (index, owned) in tiny_plans().iter().step_by(3).enumerate() {
        let limit = [1, COUNT_LIMIT][index % 2];
        for ends in pairs(owned.stations) {
            for members in all_sets(owned.stations) {
                let set = set_of(owned.stations, &members);
                let answer = alike(limit, owned, ends, &set, 2);
                refused += usize::from(number(&answer) == 9);
                touched += usize::from(answer.is_ok_and(|count| count > 0));
            }
        }
    }
    assert!(refused > 10_000 && touched > 10_000, "{refused} {touched}");
}

#[test]
fn plans_with_turnarounds_are_counted_as_listed() {
    let touched = sets_counted_as_listed(turned_plans());
    assert!(touched > 4000, "{touched}");
}

#[test]
fn plans_that_drop_readings_are_counted_as_listed() {
    let touched = sets_counted_as_listed(stale_plans());
    assert!(touched > 4000, "{touched}");
}

/// Asserts that both means agree on all sets of every other plan; gives how many sets have a walk.
fn sets_counted_as_listed(plans: Vec<Owned>) -> usize {
    let mut touched = 0;
    for (index, owned) in plans.iter().step_by(2).enumerate() {
        let limit = [1, COUNT_LIMIT, COUNT_LIMIT][index % 3];
        for ends in pairs(owned.stations) {
            for members in all_sets(owned.stations) {
                let set = set_of(owned.stations, &members);
                let answer = alike(limit, owned, ends, &set, 2);
                touched += usize::from(answer.is_ok_and(|count| count > 0));
            }
        }
    }
    touched
}

#[test]
fn random_plans_are_counted_as_listed() {
    let mut random = Random::new(11);
    let mut refused = 0;
    let mut several = 0;
    for round in 0..900 {
        let owned = match round % 3 {
            0 => random_turned_plan(&mut random),
            _ => random_plan(&mut random),
        };
        let limit = [1, 3, 9, COUNT_LIMIT, COUNT_LIMIT][random.below(5)];
        for ends in pairs(owned.stations) {
            let odds = random.between(1, 5);
            let set = (0..owned.stations).map(|_| u8::from(random.below(odds) == 0));
            let set: Vec<u8> = set.collect();
            let answer = alike(limit, &owned, ends, &set, 2);
            refused += usize::from(number(&answer) == 9);
            several += usize::from(answer.is_ok_and(|count| count > 1));
        }
    }
    assert!(refused > 500 && several > 100, "{refused} {several}");
}

#[test]
fn exact_plans_of_few_bits_are_counted_as_listed() {
    for (bits, turnaround) in [(2, 1), (3, 1), (4, 1), (2, 2), (3, 2), (3, 5)] {
        let limit = (1 << bits) - 1;
        let mut random = Random::new(12);
        for (exact, owned) in small_exact_plans(bits, turnaround) {
            for destination in 1..owned.stations {
                let set = (0..owned.stations).map(|_| random.below(2) as u8);
                let set: Vec<u8> = set.collect();
                let answer = alike(limit, &owned, (0, destination), &set, 2);
                assert_eq!(number(&answer), exact.number, "{}", exact.label);
            }
        }
    }
}

#[test]
fn refused_calls_are_answered_alike() {
    let owned = Owned::plan_a();
    let right = [1, 0, 1, 0, 1];
    let wrong = [1, 0, 1, 0, 3];
    let alike = |ends, set: &[u8], change| number(&alike(2, &owned, ends, set, change));
    assert_eq!(alike((0, 5), &wrong[..4], -1), 6);
    assert_eq!(alike((2, 2), &wrong[..4], -1), 7);
    assert_eq!(alike((0, 4), &wrong[..4], 0), 8);
    assert_eq!(alike((0, 4), &wrong, -1), 8);
    assert_eq!(alike((0, 4), &wrong, 0), 11);
    assert_eq!(alike((0, 4), &right, 0), 9);
    assert_eq!(alike((4, 0), &right, 0), 0);
}

/// A ladder's plan.
fn ladder(layers: usize, width: usize) -> Owned {
    Owned::built(&reach_cases::ladder(layers, width))
}

/// The stations of a layer of a ladder.
fn layer(width: usize, at: usize) -> Vec<usize> {
    (1 + width * (at - 1)..=width * at).collect()
}

#[test]
fn layers_of_ladders() {
    for (layers, width) in [(5, 2), (64, 2), (41, 3), (32, 4), (23, 7)] {
        let owned = ladder(layers, width);
        let last = owned.stations - 1;
        let count = (width as u64).pow(layers as u32 - 1);
        let touched = |members: &[usize]| {
            let set = set_of(owned.stations, members);
            asked(COUNTED, &owned, (0, last), &set, 0).0.unwrap()
        };
        for at in 1..layers {
            let layer = layer(width, at);
            assert_eq!(touched(&layer), count, "{layers} {width} {at}");
            let share = count / width as u64;
            assert_eq!(touched(&layer[1..]), count - share, "{layers} {width} {at}");
        }
        assert_eq!(touched(&layer(width, layers)), 0);
        let one_of_each: Vec<usize> = (1..layers).map(|at| layer(width, at)[0]).collect();
        let avoiding = (width as u64 - 1).pow(layers as u32 - 1);
        assert_eq!(touched(&one_of_each), count - avoiding);
    }
    let owned = ladder(65, 2);
    let set = vec![1; owned.stations];
    let answer = |source| asked(COUNTED, &owned, (source, 130), &set, 0).0;
    assert_eq!(number(&answer(0)), 9);
    assert_eq!(answer(1), Ok(1 << 63));
}

/// Members one by one: each adds what the through count of a plan without the earlier ones gives.
#[test]
fn members_in_turn_add_up() {
    let mut random = Random::new(13);
    for _ in 0..300 {
        let owned = random_plan(&mut random);
        for ends in pairs(owned.stations) {
            let mut members: Vec<usize> = Vec::new();
            let mut before = 0;
            for station in 0..owned.stations {
                members.push(station);
                let now = owned.touched(ends, &members);
                let through = owned.touched(ends, &[station]);
                assert!(before <= now && now <= before + through, "{owned:?}");
                before = now;
            }
        }
    }
}
