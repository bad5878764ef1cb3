//! The turnaround: the rule of following, what a larger one keeps of the walks, and the plans by hand
//! against other rules.

use std::collections::BTreeSet;

use super::support::{pairs, random_plan, random_turned_plan, tiny_plans, Owned};
use crate::means::COUNT_LIMIT;
use crate::plan::{Plan, Terms, KEPT, LEAST_TURNAROUND, MOST_TURNAROUND};
use crate::random::Random;
use crate::shortest::{positions_of, shortest_walks};
use crate::turned::{TurnedPlan, TURNED_PLANS};
use crate::walk::{walks_from, Walk};

/// The terms of units with a turnaround that keep every reading.
fn turning(turnaround: usize) -> Terms {
    let keeping = KEPT;
    Terms {
        turnaround,
        keeping,
    }
}

#[test]
fn the_rule_of_following() {
    for slot in 0..=40 {
        for reached in 0..=40 {
            let strict = reached < slot;
            assert_eq!(turning(LEAST_TURNAROUND).follows(reached, slot), strict);
            for turnaround in 1..=MOST_TURNAROUND {
                let expected = match reached {
                    0 => slot >= 1,
                    _ => slot >= reached + turnaround,
                };
                assert_eq!(turning(turnaround).follows(reached, slot), expected);
            }
        }
    }
}

/// The slots of a walk's contacts.
fn slots_of(plan: &Plan, walk: &Walk) -> Vec<usize> {
    let positions = walk.positions.iter();
    let slots = positions.map(|position| plan.contacts[usize::from(*position)].slot);
    slots.collect()
}

/// The positions of all walks from a source.
fn walks_of(owned: &Owned, source: usize) -> BTreeSet<Vec<u16>> {
    let walks = walks_from(&owned.plan(), source);
    walks.into_iter().map(|walk| walk.positions).collect()
}

/// Tiny plans and drawn ones, whatever their turnarounds.
fn plans() -> Vec<Owned> {
    let mut random = Random::new(22);
    let mut plans: Vec<Owned> = tiny_plans().into_iter().step_by(7).collect();
    for _ in 0..300 {
        plans.push(random_plan(&mut random));
        plans.push(random_turned_plan(&mut random));
    }
    plans
}

/// The walks by the strict rule, and of these the ones whose slots are a turnaround apart.
#[test]
fn walks_are_those_of_the_strict_rule_that_wait() {
    let mut kept = [0; 2];
    for owned in plans() {
        for source in 0..owned.stations {
            let strict = owned.clone().turning(1).plan();
            let walks = walks_from(&strict, source);
            for turnaround in [1, 2, 3, 5, 16] {
                let waits = |walk: &&Walk| {
                    let slots = slots_of(&strict, walk);
                    slots.windows(2).all(|two| two[1] - two[0] >= turnaround)
                };
                let expected: BTreeSet<Vec<u16>> = walks
                    .iter()
                    .filter(waits)
                    .map(|walk| walk.positions.clone())
                    .collect();
                let found = walks_of(&owned.clone().turning(turnaround), source);
                assert_eq!(found, expected, "{owned:?} {turnaround}");
                kept[0] += usize::from(expected.len() < walks.len());
                kept[1] += expected.iter().filter(|walk| walk.len() > 1).count();
            }
        }
    }
    assert!(kept.iter().all(|count| *count > 1000), "{kept:?}");
}

/// A walk with a larger turnaround is one with a smaller; so nothing is reached by fewer hops.
#[test]
fn a_larger_turnaround_keeps_fewer_walks() {
    let mut lost = 0;
    for owned in plans() {
        for source in 0..owned.stations {
            let mut before = walks_of(&owned.clone().turning(1), source);
            for turnaround in 2..=MOST_TURNAROUND {
                let walks = walks_of(&owned.clone().turning(turnaround), source);
                assert!(walks.is_subset(&before), "{owned:?} {turnaround}");
                lost += before.len() - walks.len();
                before = walks;
            }
            assert!(before.iter().all(|walk| walk.len() <= 1));
        }
        for (source, destination) in pairs(owned.stations) {
            let hops = |turnaround| {
                let turned = owned.clone().turning(turnaround);
                turned
                    .pair(COUNT_LIMIT, source, destination)
                    .unwrap()
                    .values
                    .hops
            };
            assert!(hops(1) <= hops(2) && hops(2) <= hops(3), "{owned:?}");
        }
    }
    assert!(lost > 10_000, "{lost}");
}

/// Where the turnaround is at least T, nothing that is heard goes out: the walks of one hop alone.
#[test]
fn a_turnaround_of_t_or_more_leaves_single_hops() {
    for owned in plans() {
        for turnaround in [owned.slots, owned.slots + 1, MOST_TURNAROUND] {
            let turned = owned.clone().turning(turnaround.min(MOST_TURNAROUND));
            let contacts = turned.plan().contacts;
            for source in 0..owned.stations {
                let sent = contacts.iter().filter(|contact| contact.sender == source);
                let walks = walks_of(&turned, source);
                assert_eq!(walks.len(), 1 + sent.count(), "{turned:?}");
                assert!(walks.iter().all(|walk| walk.len() <= 1), "{turned:?}");
            }
        }
    }
}

#[test]
fn plans_by_hand_have_the_paths_stated() {
    for turned in TURNED_PLANS {
        let (owned, last) = (turned.owned(), turned.last().into());
        assert_eq!(owned.list(0, last), turned.there, "{}", turned.label);
        assert_eq!(owned.list(last, 0), turned.back, "{}", turned.label);
    }
}

/// Another rule of following: g, whether the source sends, the slot of the appearance, and the contact's.
type Rule = fn(usize, bool, usize, usize) -> bool;

/// The rules that the plans by hand tell from the rule of `plan`.
const OTHER_RULES: [(&str, Rule); 7] = [
    ("slots rise", |_, _, reached, slot| reached < slot),
    ("the first hop waits too", |g, _, reached, slot| {
        reached + g <= slot
    }),
    ("a slot more", |g, _, reached, slot| {
        reached < slot && (reached == 0 || reached + g < slot)
    }),
    ("a slot less", |g, _, reached, slot| {
        reached < slot && (reached == 0 || reached + g <= slot + 1)
    }),
    ("only the source waits", |g, source, reached, slot| {
        reached < slot && (reached == 0 || !source || reached + g <= slot)
    }),
    ("in whole turnarounds", |g, _, reached, slot| {
        reached < slot && (reached == 0 || reached / g < slot / g)
    }),
    ("g slots at most", |g, _, reached, slot| {
        reached < slot && (reached == 0 || slot <= reached + g)
    }),
];

/// All walks from a source by another rule.
fn walks_by(rule: Rule, plan: &Plan, source: usize) -> Vec<Walk> {
    let mut walks = vec![Walk::empty(source)];
    let mut next = 0;
    while let Some(walk) = walks.get(next).cloned() {
        for (position, contact) in plan.contacts.iter().enumerate() {
            let follows = rule(
                plan.terms.turnaround,
                walk.end() == source,
                walk.slot,
                contact.slot,
            );
            if let Some(station) = contact.leads_from(walk.end()).filter(|_| follows) {
                let mut longer = walk.clone();
                longer.positions.push(position as u16);
                longer.stations.push(station);
                longer.slot = contact.slot;
                walks.push(longer);
            }
        }
        next += 1;
    }
    walks
}

#[test]
fn plans_by_hand_have_other_paths_by_other_rules() {
    for (name, rule) in OTHER_RULES {
        let differs = |turned: &&TurnedPlan| {
            let (plan, last) = (turned.owned().plan(), turned.last().into());
            let list = |source, destination| {
                let walks = walks_by(rule, &plan, source);
                positions_of(&shortest_walks(&walks, destination))
            };
            list(0, last) != turned.there || list(last, 0) != turned.back
        };
        let differ = TURNED_PLANS.iter().filter(differs).count();
        assert!(differ > 2, "{name}: {differ}");
    }
}
