//! The pairs of a station and their first walks: both means, and the complete lists.

use super::support::{stale_plans, tiny_plans, turned_plans, Owned};
use crate::account::{Account, AccountPair, MOST_SHOWN};
use crate::load_program::accepted_plan;
use crate::loads::share;
use crate::means::{Means, COUNTED, LISTED};
use crate::pair::PairValues;
use crate::plan::Plan;
use crate::plans::{pairs, possible_records};
use crate::random::Random;
use crate::reach_cases::spaced_sent_ladder;
use crate::ways::walk_positions;

/// The pairs of a station from the complete lists of positions: the hearer of every hop but the last is interior.
fn plain_pairs(plan: &Plan, station: usize) -> Vec<AccountPair> {
    let mut found = Vec::new();
    for ends in pairs(plan.stations).filter(|ends| ends.0 != station && ends.1 != station) {
        let list = walk_positions(u64::MAX, plan, ends).unwrap();
        let calls = |walk: &&Vec<u16>| {
            let (_, inner) = walk.split_last().unwrap();
            let heard = |position: &u16| plan.contacts[usize::from(*position)].hearer;
            inner.iter().any(|position| heard(position) == station)
        };
        let calling: Vec<Vec<u16>> = list.iter().filter(calls).cloned().collect();
        if let Some(first) = calling.first() {
            found.push(AccountPair {
                ends,
                values: PairValues {
                    hops: first.len() as u16,
                    count: list.len() as u64,
                },
                through: calling.len() as u64,
                walks: calling.into_iter().take(MOST_SHOWN).collect(),
            });
        }
    }
    found
}

/// Both means give the pairs of the complete lists, and these have the station's number of pairs and its load.
fn assert_alike(owned: &Owned) -> Vec<Account> {
    let plan = owned.plan();
    let loads = owned.loads(u64::MAX).unwrap();
    let account = |station: usize| {
        let [listed, counted] =
            [LISTED, COUNTED].map(|means: Means| means.account(&plan, station).unwrap());
        assert_eq!(listed, counted, "{owned:?}");
        assert_eq!(listed.pairs, plain_pairs(&plan, station), "{owned:?}");
        let shares = listed.pairs.iter();
        let shares = shares.map(|pair| share(pair.through, pair.values.count));
        assert_eq!(listed.load, loads[station], "{owned:?}");
        assert_eq!(loads[station].pairs, listed.pairs.len() as u64);
        assert_eq!(loads[station].load, shares.sum::<u64>());
        listed
    };
    (0..plan.stations).map(account).collect()
}

#[test]
fn tiny_and_turned_plans_alike() {
    let mut shown = [0; MOST_SHOWN + 1];
    for owned in tiny_plans().into_iter().chain(turned_plans()) {
        for pair in assert_alike(&owned).iter().flat_map(|one| &one.pairs) {
            shown[pair.walks.len()] += 1;
        }
    }
    assert!(shown[1..].iter().all(|pairs| *pairs > 5), "{shown:?}");
}

/// Where readings are dropped a walk that calls twice stands once.
#[test]
fn stale_plans_alike() {
    let mut twice = 0;
    for owned in stale_plans() {
        let heard: Vec<usize> = owned.plan().contacts.iter().map(|one| one.hearer).collect();
        for account in assert_alike(&owned) {
            let calls = |walk: &&Vec<u16>| {
                let called = walk
                    .iter()
                    .filter(|at| heard[usize::from(**at)] == account.station);
                called.count() > 1
            };
            let walks = account.pairs.iter().flat_map(|pair| &pair.walks);
            twice += walks.filter(calls).count();
        }
    }
    assert!(twice > 20, "{twice}");
}

/// Neighbours in many slots, so that more walks have a station interior than are shown.
#[test]
fn drawn_plans_alike() {
    let mut random = Random::new(14);
    let mut more = 0;
    for _ in 0..100 {
        let (stations, slots) = (random.between(3, 4), random.between(6, 8));
        let mut records = possible_records(stations, slots);
        records.retain(|(_, a, b)| a.abs_diff(*b) == 1 && random.below(3) > 0);
        let owned = Owned::new(stations, slots, &records);
        let accounts = assert_alike(&owned);
        let pairs = accounts.iter().flat_map(|account| &account.pairs);
        more += pairs
            .filter(|pair| pair.through > MOST_SHOWN as u64)
            .count();
    }
    assert!(more > 50, "{more}");
}

/// A ladder of 15 layers of two that send to the next: of the 2^14 walks to station 29 the 2^13 with station 2 come
/// behind all with station 1. The first takes the first station of every layer but the first; the last three layers
/// before the end make the order.
#[test]
fn a_ladder_has_its_second_half_through_station_2() {
    let bytes = Owned::built(&spaced_sent_ladder(2, 15, 2)).bytes;
    let plan = accepted_plan(2, &bytes).unwrap();
    let account = COUNTED.account(&plan, 2).unwrap();
    let pair = account.pairs.iter().find(|pair| pair.ends == (0, 29));
    let pair = pair.unwrap();
    assert_eq!((pair.values.hops, pair.values.count), (15, 1 << 14));
    assert_eq!(pair.through, 1 << 13);
    for (rank, walk) in pair.walks.iter().enumerate() {
        let heard = walk.iter().map(|at| plan.contacts[usize::from(*at)].hearer);
        let second = |layer: usize| match layer {
            0 => 1,
            11..=13 => rank >> (13 - layer) & 1,
            _ => 0,
        };
        let expected = (0..15).map(|layer| 2 * layer + 1 + second(layer));
        assert!(heard.eq(expected), "{rank}");
    }
    assert_eq!(pair.walks.len(), 8);
}
