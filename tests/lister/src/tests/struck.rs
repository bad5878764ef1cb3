//! Struck out: plans by hand, both means against a plain enumeration of the walks, the loads of the bytes without the
//! record, the bounds that document 02 states, and cause 9 in one of the two plans.

use std::collections::BTreeSet;

use super::asked::{Asked, BOTH};
use super::enumerated::Naive;
use super::support::{
    all_plans, pairs, random_plan, random_turned_plan, stale_plans, tiny_plans, turned_plans, Owned,
};
use crate::answer::{number, Answer};
use crate::means::{COUNTED, COUNT_LIMIT, LISTED};
use crate::random::Random;
use crate::reach_cases::ladder;
use crate::show::{struck_text, text_of};
use crate::stale::{detours, random_stale_plan, small_terms};
use crate::struck_cases::{struck_ladders, STRUCK_PLANS};

#[test]
fn plans_by_hand() {
    for plan in STRUCK_PLANS {
        let owned = plan.labelled().owned();
        for struck in plan.struck {
            let expected = Ok((struck.pairs, struck.changes.to_vec()));
            for means in BOTH {
                let found = Asked(means, &owned).struck_out(struck.position as usize);
                assert_eq!(found, expected, "{} {}", plan.label, struck.position);
            }
        }
    }
}

#[test]
fn shown_changes() {
    let owned = Owned::plan_a().turning(1);
    let shown = "position 10 pairs 4\n\
                 changes 0 -1431655765 -2863311530 -12884901888 0\n";
    assert_eq!(text_of(struck_text(owned.input(), 10)), shown);
    assert_eq!(text_of(struck_text(owned.input(), 12)), "refused 17\n");
}

/// n, T, g and h stay, and the other contacts keep their order: the plan that the bytes without the six hold.
#[test]
fn the_bytes_without_a_record() {
    let plans = tiny_plans().into_iter().step_by(7).chain(stale_plans());
    for owned in plans {
        let plan = owned.plan();
        for position in 0..owned.records() {
            let without = owned.without(position);
            assert_eq!(without.bytes.len() + 6, owned.bytes.len());
            assert_eq!(plan.without(position), without.plan(), "{owned:?}");
        }
    }
}

/// By the plain enumeration: the pairs with the position in their list, and the differences of the loads.
fn enumerated(owned: &Owned, position: usize) -> (u64, Vec<i64>) {
    let naive = Naive::new(&owned.plan());
    let without = Naive::new(&owned.without(position).plan());
    let uses = |walk: &Vec<u16>| walk.contains(&(position as u16));
    let using = pairs(owned.stations).filter(|ends| naive.list(*ends).iter().any(uses));
    let [without, with] = [&without, &naive].map(|naive| naive.loads(owned.stations));
    let changes = without.iter().zip(&with);
    let changes = changes.map(|(without, with)| without.load as i64 - with.load as i64);
    (using.count() as u64, changes.collect())
}

/// What a comparison with the plain enumeration has seen.
#[derive(Debug, Default)]
struct Seen {
    /// Contacts that only the pair of its sender and its hearer uses.
    alone: usize,
    /// Contacts with a change above 0, with one below 0, with both, and with none.
    up: usize,
    down: usize,
    both: usize,
    none: usize,
    /// Changes as large as can be.
    largest: usize,
}

/// Compares both means with the enumeration at every position, and the changes with the bound: no change is larger
/// than the number of pairs × 2^32. The pair of sender and hearer uses the contact, so no number of pairs is 0.
fn assert_struck(owned: &Owned, seen: &mut Seen) {
    for position in 0..owned.records() {
        let (using, changes) = enumerated(owned, position);
        for means in BOTH {
            let found = Asked(means, owned).struck_out(position);
            assert_eq!(found, Ok((using, changes.clone())), "{position} {owned:?}");
        }
        let contact = owned.plan().contacts[position];
        let own = owned.list(contact.sender, contact.hearer);
        assert!(own.contains(&vec![position as u16]), "{position} {owned:?}");
        assert!(using > 0, "{position} {owned:?}");
        let most = (using << 32) as i64;
        let size = changes.iter().map(|change| change.abs()).max().unwrap();
        assert!(size <= most, "{position} {owned:?}");
        let some = |holds: fn(&i64) -> bool| changes.iter().any(holds);
        let (up, down) = (some(|change| *change > 0), some(|change| *change < 0));
        seen.alone += usize::from(using == 1);
        seen.up += usize::from(up);
        seen.down += usize::from(down);
        seen.both += usize::from(up && down);
        seen.none += usize::from(!up && !down);
        seen.largest += usize::from(size == most);
    }
}

#[test]
fn tiny_plans_are_as_enumerated() {
    let mut seen = Seen::default();
    let mut plans = all_plans(2, 3);
    plans.extend(all_plans(3, 2).into_iter().step_by(17));
    let further = tiny_plans().into_iter().filter(|plan| plan.stations > 3);
    plans.extend(further.step_by(43));
    for (index, owned) in plans.iter().enumerate() {
        let terms = small_terms();
        let (turnaround, keeping) = terms[index % terms.len()];
        let dropping = owned.clone().turning(turnaround).keeping_for(keeping);
        assert_struck(owned, &mut seen);
        assert_struck(&dropping, &mut seen);
    }
    let Seen { up, down, both, .. } = seen;
    assert!(up > 50 && down > 500 && both > 10, "{seen:?}");
    assert!(seen.largest > 50, "{seen:?}");
    assert!(seen.alone > 1000 && seen.none > 1000, "{seen:?}");
}

#[test]
fn plans_with_detours_are_as_enumerated() {
    let mut seen = Seen::default();
    for (index, owned) in detours().into_iter().enumerate() {
        let terms = small_terms();
        let (turnaround, keeping) = terms[index % terms.len()];
        let owned = owned.turning(turnaround).keeping_for(keeping);
        assert_struck(&owned, &mut seen);
    }
    assert!(seen.down > 1000 && seen.alone > 1000, "{seen:?}");
}

#[test]
fn drawn_plans_are_as_enumerated() {
    let mut random = Random::new(23);
    let mut seen = Seen::default();
    for round in 0..300 {
        let owned = match round % 3 {
            0 => random_turned_plan(&mut random),
            _ => random_stale_plan(&mut random),
        };
        assert_struck(&owned, &mut seen);
    }
    assert!(seen.both > 50 && seen.alone > 50, "{seen:?}");
}

/// The changes by the loads of the two plans, each read from its own bytes.
fn by_loads(limit: u64, owned: &Owned, position: usize) -> Answer<Vec<i64>> {
    let with = owned.loads(limit)?;
    let without = owned.without(position).loads(limit)?;
    let change = |at: usize| without[at].load as i64 - with[at].load as i64;
    Ok((0..owned.stations).map(change).collect())
}

/// With a small largest count: 9 where one of the two plans has it, in each of the ways; both means agree, and the
/// changes are the differences of the loads.
#[test]
fn cause_9_of_either_plan() {
    let mut random = Random::new(24);
    let mut ways = [[0; 2]; 2];
    let mut plans: Vec<Owned> = (0..400).map(|_| random_plan(&mut random)).collect();
    plans.extend(turned_plans().into_iter().step_by(23));
    plans.extend(stale_plans().into_iter().step_by(11));
    for (index, owned) in plans.iter().enumerate() {
        let limit = [1, 2, 3, 5, COUNT_LIMIT][index % 5];
        for position in 0..owned.records() {
            let expected = by_loads(limit, owned, position);
            for means in BOTH.map(|means| means.within(limit)) {
                let found = Asked(means, owned).struck_out(position);
                let changes = found.map(|(_, changes)| changes);
                assert_eq!(changes, expected, "limit {limit}, {position} {owned:?}");
            }
            let listed = Asked(LISTED.within(limit), owned).struck_out(position);
            let counted = Asked(COUNTED.within(limit), owned).struck_out(position);
            assert_eq!(listed, counted, "limit {limit}, {position} {owned:?}");
            let plans = [owned.clone(), owned.without(position)];
            let refused = plans.map(|plan| usize::from(number(&plan.loads(limit)) == 9));
            ways[refused[0]][refused[1]] += 1;
        }
    }
    assert!(ways.iter().flatten().all(|count| *count > 10), "{ways:?}");
}

/// 9 sets the named parts of both tables to 0 and leaves the entries behind them; the value is 0. With a largest count of
/// 1, two walks from 0 to 3 are too many; the contact from 0 to 3 undercuts them.
#[test]
fn cause_9_clears_both_tables() {
    let records = [(1, 0, 1), (1, 0, 2), (2, 0, 3), (2, 1, 3), (2, 2, 3)];
    let undercut = Owned::new(4, 2, &records);
    let both_walks = undercut.without(2);
    for (owned, position, expected) in [(&undercut, 2, 9), (&both_walks, 2, 9), (&undercut, 3, 0)] {
        for means in BOTH.map(|means| means.within(1)) {
            let (mut changes, mut scratch) = ([-7; 6], [7; 50]);
            let answer = means.struck_out(owned.input(), position, &mut changes, &mut scratch);
            assert_eq!(number(&answer), expected);
            assert_eq!(changes, [0, 0, 0, 0, -7, -7]);
            assert!(scratch[..48].iter().all(|entry| *entry == 0));
            assert_eq!(scratch[48..], [7; 2]);
        }
    }
}

/// Ladders with around 2^64 walks: the numbers of the two plans are as stated, in each of the four ways.
#[test]
fn ladders_have_too_many_walks_as_stated() {
    let mut ways = BTreeSet::new();
    for ladder in struck_ladders() {
        let owned = ladder.labelled().owned();
        let position = ladder.position() as usize;
        let record = owned.plan().contacts[position];
        let fields = [record.slot, record.sender, record.hearer];
        assert_eq!(fields, <[u16; 3]>::from(ladder.record).map(usize::from));
        let plans = [owned.clone(), owned.without(position)];
        let numbers = plans.map(|plan| number(&Asked(COUNTED, &plan).loads(plan.stations)));
        assert_eq!(numbers, [ladder.with, ladder.without], "{}", ladder.label);
        ways.insert(numbers);
    }
    assert_eq!(ways, [[0, 0], [0, 9], [9, 0], [9, 9]].into());
}

/// A ladder of 64 layers without a contact between the last two layers: the walks to one of the last stations are half
/// as many, and of those that are left all have the same station before them.
#[test]
fn a_ladder_without_one_of_its_last_contacts() {
    let layers = 64;
    let owned = Owned::built(&ladder(layers, 2));
    let [before, other] = [2 * layers - 3, 2 * layers - 2];
    let [end, _] = [2 * layers - 1, 2 * layers];
    let contacts = owned.plan().contacts;
    let struck = |contact: &&crate::plan::Contact| {
        (contact.slot, contact.sender, contact.hearer) == (layers, before, end)
    };
    let struck = contacts.iter().find(struck).unwrap();
    let position = contacts.binary_search(struck).unwrap();
    let (using, changes) = Asked(COUNTED, &owned).struck_out(position).unwrap();
    // the pairs of the sender and of every station in an earlier layer with the hearer
    let earlier = before;
    assert_eq!(using, earlier as u64 + 1);
    // from each of these the other station has all walks where it had half, and the sender none
    let half = (earlier as i64) << 31;
    assert_eq!([changes[before], changes[other]], [-half, half]);
    let sum: i64 = changes.iter().sum();
    assert_eq!((sum, changes[end]), (0, 0));
}
