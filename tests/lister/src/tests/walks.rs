//! The list of walks against a filter of all position sequences, for several turnarounds and keepings.

use super::support::{all_doubled_plans, all_plans, stale_plans, Owned};
use crate::one_way::{OneWayPlan, ONE_WAY_PLANS};
use crate::plan::{Plan, KEPT, RECORD_BYTES};
use crate::turned::TURNED_PLANS;
use crate::walk::walks_from;

/// Whether the positions are a walk from the source, checked hop by hop.
fn is_walk(plan: &Plan, source: usize, positions: &[u16]) -> bool {
    let mut station = source;
    let mut slot = 0;
    for position in positions {
        let contact = plan.contacts[usize::from(*position)];
        let (earliest, latest) = match slot {
            0 => (1, plan.slots),
            heard => (heard + plan.terms.turnaround, heard + plan.terms.keeping),
        };
        if contact.sender != station || contact.slot < earliest || contact.slot > latest {
            return false;
        }
        station = contact.hearer;
        slot = contact.slot;
    }
    true
}

/// All subsets of positions, each in rising order, that are walks, in order.
fn filtered(plan: &Plan, source: usize) -> Vec<Vec<u16>> {
    let positions = plan.contacts.len() as u16;
    let chosen = |subset: u32| -> Vec<u16> {
        let in_subset = |position: &u16| subset >> position & 1 == 1;
        (0..positions).filter(in_subset).collect()
    };
    let sequences = (0..1 << positions).map(chosen);
    let mut walks: Vec<Vec<u16>> = sequences
        .filter(|sequence| is_walk(plan, source, sequence))
        .collect();
    walks.sort();
    walks
}

fn listed(plan: &Plan, source: usize) -> Vec<Vec<u16>> {
    let walks = walks_from(plan, source);
    let mut positions: Vec<Vec<u16>> = walks.iter().map(|walk| walk.positions.clone()).collect();
    positions.sort();
    positions
}

#[test]
fn walks_are_the_filtered_sequences() {
    let mut plans = all_plans(3, 2);
    plans.extend(all_plans(2, 3));
    plans.extend(all_doubled_plans(3, 3).into_iter().step_by(9));
    plans.extend(ONE_WAY_PLANS.iter().map(OneWayPlan::owned));
    plans.push(Owned::plan_a());
    for owned in plans {
        let plan = owned.plan();
        for source in 0..plan.stations {
            let expected = filtered(&plan, source);
            assert_eq!(listed(&plan, source), expected, "{owned:?} {source}");
        }
    }
}

#[test]
fn walks_with_turnarounds_are_the_filtered_sequences() {
    let mut plans = all_plans(2, 4);
    plans.extend(all_plans(3, 2).into_iter().step_by(7));
    plans.extend(all_doubled_plans(3, 3).into_iter().step_by(11));
    let two_hops = |slots: u16| (1..=slots).flat_map(|slot| [(slot, 0, 1), (slot, 1, 2)]);
    let row: Vec<_> = two_hops(7).collect();
    plans.push(Owned::new(3, 7, &row));
    plans.push(Owned::plan_a());
    let mut kept = [0; 4];
    for owned in plans {
        for (at, turnaround) in [1, 2, 3, 5].into_iter().enumerate() {
            let plan = owned.clone().turning(turnaround).plan();
            for source in 0..plan.stations {
                let expected = filtered(&plan, source);
                assert_eq!(listed(&plan, source), expected, "{owned:?} {source}");
                kept[at] += expected.iter().filter(|walk| walk.len() > 1).count();
            }
        }
    }
    assert!(kept[0] > kept[1] && kept[1] > kept[2] && kept[2] > kept[3] && kept[3] > 0);
    for turned in TURNED_PLANS {
        let plan = turned.owned().plan();
        for source in (0..plan.stations).filter(|_| plan.contacts.len() < 14) {
            let expected = filtered(&plan, source);
            assert_eq!(listed(&plan, source), expected, "{}", turned.label);
        }
    }
}

#[test]
fn walks_of_units_that_drop_readings_are_the_filtered_sequences() {
    let mut fewer = 0;
    let plans = stale_plans().into_iter().step_by(3);
    for owned in plans.filter(|owned| owned.bytes.len() <= 12 * RECORD_BYTES) {
        let (plan, kept) = (owned.plan(), owned.clone().keeping_for(KEPT).plan());
        for source in 0..plan.stations {
            let expected = filtered(&plan, source);
            assert_eq!(listed(&plan, source), expected, "{owned:?} {source}");
            fewer += usize::from(expected.len() < listed(&kept, source).len());
        }
    }
    assert!(fewer > 500, "{fewer}");
}

#[test]
fn walks_carry_their_stations() {
    let plan = Owned::plan_a().plan();
    let walks = walks_from(&plan, 0);
    let walk = walks.iter().find(|walk| walk.positions == [1, 5, 9]);
    let walk = walk.unwrap();
    assert_eq!(walk.stations, [0, 2, 3, 2]);
    assert_eq!((walk.source(), walk.end(), walk.slot), (0, 2, 3));
    assert!(!walk.is_path());
    assert!(walk.has_interior(3));
    assert!(!walk.has_interior(2) && !walk.has_interior(0) && !walk.has_interior(1));
}
