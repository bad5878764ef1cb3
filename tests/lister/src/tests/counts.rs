//! Cause 9 with a lowered limit, and shares.

use super::support::Owned;
use crate::answer::{Answer, CallFault, Refusal};
use crate::loads::share;
use crate::reach_cases;

const TOO_MANY: Refusal = Refusal::Call(CallFault::TooMany);

/// A ladder of two stations a layer.
fn ladder(layers: u16) -> Owned {
    Owned::built(&reach_cases::ladder(layers.into(), 2))
}

fn refused<V: std::fmt::Debug + PartialEq>(answer: Answer<V>) -> bool {
    answer == Err(TOO_MANY)
}

#[test]
fn ladder_counts() {
    for layers in 1..=6 {
        let owned = ladder(layers);
        let last = owned.stations - 1;
        let count = 1 << (layers - 1);
        let reached = owned.reach(count, 0).unwrap();
        assert_eq!(reached.station(last), (layers, count));
        assert_eq!(owned.plan().contacts.len(), 8 * usize::from(layers) - 4);
        if layers > 1 {
            assert!(refused(owned.reach(count - 1, 0)));
            assert!(refused(owned.pair(count - 1, 0, last)));
        }
    }
}

#[test]
fn limit_itself_is_accepted() {
    let owned = Owned::plan_a();
    assert!(owned.reach(3, 0).is_ok());
    assert!(owned.pair(3, 0, 4).is_ok());
    assert!(owned.loads(3).is_ok());
    assert!(owned.busiest(3).is_ok());
    assert!(refused(owned.reach(2, 0)));
    assert!(refused(owned.pair(2, 0, 4)));
    assert!(refused(owned.loads(2)));
    assert!(refused(owned.busiest(2)));
}

#[test]
fn stations_off_the_pair_count() {
    assert!(refused(Owned::plan_a().pair(2, 0, 1)));
}

#[test]
fn other_sources_do_not_count() {
    assert!(Owned::plan_a().pair(2, 4, 3).is_ok());
    assert!(Owned::plan_a().reach(2, 4).is_ok());
}

#[test]
fn return_to_the_source_counts() {
    let records = [
        (1, 0, 1),
        (1, 0, 2),
        (1, 0, 3),
        (2, 0, 1),
        (2, 0, 2),
        (2, 0, 3),
    ];
    let owned = Owned::doubled(4, 2, &records);
    let reached = owned.reach(3, 0).unwrap();
    assert_eq!(reached.appearance(0, 2), (2, 3));
    assert!((1..4).all(|station| reached.station(station) == (1, 2)));
    assert!(refused(owned.reach(2, 0)));
    assert!(refused(owned.pair(2, 0, 1)));
}

#[test]
fn station_total_counts_without_its_appearances() {
    let owned = Owned::doubled(2, 3, &[(1, 0, 1), (2, 0, 1), (3, 0, 1)]);
    let reached = owned.reach(3, 0).unwrap();
    assert_eq!(reached.station(1), (1, 3));
    assert!((1..=3).all(|slot| reached.appearance(1, slot) == (1, 1)));
    assert!(refused(owned.pair(2, 0, 1)));
}

#[test]
fn undercut_totals_do_not_count() {
    let records = [
        (1, 0, 1),
        (1, 0, 2),
        (1, 0, 4),
        (2, 1, 3),
        (3, 2, 3),
        (4, 3, 4),
        (5, 0, 1),
        (5, 0, 3),
    ];
    let reached = Owned::doubled(5, 5, &records).reach(2, 0).unwrap();
    assert_eq!(reached.station(3), (1, 1));
    let early: Vec<(u16, u64)> = (2..5).map(|slot| reached.appearance(3, slot)).collect();
    assert_eq!(early, [(2, 1), (2, 1), (2, 1)]);
}

#[test]
fn shares_are_whole_parts() {
    assert_eq!(share(1, 3), 1431655765);
    assert_eq!(share(2, 3), 2863311530);
    assert_eq!(share(3, 3), 1 << 32);
    assert_eq!(share(1, u64::MAX), 0);
    assert_eq!(share(u64::MAX - 1, u64::MAX), (1 << 32) - 1);
    assert_eq!(share(u64::MAX, u64::MAX), 1 << 32);
    assert_eq!(share((1 << 63) - 1, 1 << 63), (1 << 32) - 1);
}
