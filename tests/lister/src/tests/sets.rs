//! Through set by the plain lister: plan A, sets of every kind, and cause 11.

use super::support::{pairs, tiny_plans, turned_plans, Owned};
use crate::answer::number;
use crate::means::{COUNT_LIMIT, LISTED};
use crate::plan::Ends;
use crate::set_cases::all_sets;
use crate::sets::set_of;
use crate::show::{set_text, text_of};

#[test]
fn sets_of_plan_a() {
    let owned = Owned::plan_a();
    let none: [usize; 0] = [];
    assert_eq!(owned.touched((0, 4), &none), 0);
    assert_eq!(owned.touched((0, 4), &[1]), 1);
    assert_eq!(owned.touched((0, 4), &[2]), 2);
    assert_eq!(owned.touched((0, 4), &[1, 2]), 3);
    assert_eq!(owned.touched((0, 4), &[3]), 3);
    assert_eq!(owned.touched((0, 4), &[0, 4]), 0);
    assert_eq!(owned.touched((0, 4), &[0, 1, 2, 3, 4]), 3);
    assert_eq!(owned.touched((2, 1), &[0, 1, 2, 3, 4]), 0);
}

#[test]
fn a_path_through_two_members_counts_once() {
    let owned = Owned::plan_a();
    assert_eq!(owned.touched((0, 4), &[1, 3]), 3);
    assert_eq!(owned.touched((0, 4), &[2, 3]), 3);
    let row = Owned::doubled(5, 4, &[(1, 0, 1), (2, 1, 2), (3, 2, 3), (4, 3, 4)]);
    assert_eq!(row.touched((0, 4), &[1, 2, 3]), 1);
    assert_eq!(row.touched((0, 4), &[1, 3]), 1);
}

#[test]
fn set_of_one_is_the_through_count() {
    for owned in [tiny_plans(), turned_plans()].concat() {
        for (source, destination) in pairs(owned.stations) {
            let paired = owned.pair(COUNT_LIMIT, source, destination).unwrap();
            for (station, through) in paired.through.iter().enumerate() {
                let touched = owned.touched((source, destination), &[station]);
                assert_eq!(touched, *through, "{owned:?}");
            }
        }
    }
}

/// The paths of a pair that have no member interior, one by one.
fn avoiding(owned: &Owned, ends: Ends, members: &[usize]) -> u64 {
    let contacts = owned.plan().contacts;
    let is_member = |station: usize| station != ends.1 && members.contains(&station);
    let avoids = |path: &&Vec<u16>| {
        let reached = path.iter();
        let mut reached = reached.map(|position| contacts[usize::from(*position)].hearer);
        reached.all(|station| !is_member(station))
    };
    owned.list(ends.0, ends.1).iter().filter(avoids).count() as u64
}

#[test]
fn touched_and_avoiding_paths_are_all_paths() {
    let mut some = 0;
    let plans = [tiny_plans(), turned_plans()].concat();
    for owned in plans.into_iter().step_by(4) {
        for ends in pairs(owned.stations) {
            let count = owned.list(ends.0, ends.1).len() as u64;
            for members in all_sets(owned.stations) {
                let touched = owned.touched(ends, &members);
                assert_eq!(
                    touched + avoiding(&owned, ends, &members),
                    count,
                    "{owned:?}"
                );
                some += usize::from(0 < touched && touched < count);
            }
        }
    }
    assert!(some > 1000, "{some}");
}

#[test]
fn the_ends_do_not_count() {
    for owned in tiny_plans().into_iter().step_by(3) {
        for ends in pairs(owned.stations) {
            assert_eq!(owned.touched(ends, &[ends.0, ends.1]), 0, "{owned:?}");
            for members in all_sets(owned.stations) {
                let mut inner = members.clone();
                inner.retain(|member| *member != ends.0 && *member != ends.1);
                let touched = owned.touched(ends, &members);
                assert_eq!(touched, owned.touched(ends, &inner), "{owned:?}");
            }
        }
    }
}

#[test]
fn bytes_behind_the_set_are_not_looked_at() {
    let owned = Owned::plan_a();
    for behind in [&[0][..], &[1, 1], &[2], &[255, 0, 7], &[9; 300]] {
        let set = [&set_of(5, &[2]), behind].concat();
        assert_eq!(owned.through_set(COUNT_LIMIT, (0, 4), &set), Ok(2));
    }
}

#[test]
fn every_wrong_byte_is_11() {
    let owned = Owned::plan_a();
    for place in 0..5 {
        for byte in 2..=255 {
            let mut set = set_of(5, &[1, 2]);
            set[place] = byte;
            let answer = owned.through_set(COUNT_LIMIT, (0, 4), &set);
            assert_eq!(number(&answer), 11, "{byte} at {place}");
        }
    }
}

#[test]
fn eleven_is_after_8_and_before_9() {
    let owned = Owned::plan_a();
    let asked = |limit: u64, set: &[u8], entries: usize| {
        let mut scratch = vec![7; entries];
        let listed = LISTED.within(limit);
        let answer = listed.through_set(owned.input(), (0, 4), set, &mut scratch);
        let cleared = scratch.iter().take(100).all(|entry| *entry == 0);
        let kept = scratch.iter().all(|entry| *entry == 7);
        (number(&answer), cleared && !kept, kept)
    };
    let (right, wrong) = ([1, 0, 1, 0, 1], [1, 0, 2, 0, 1]);
    assert_eq!(asked(COUNT_LIMIT, &wrong, 100), (11, false, true));
    assert_eq!(asked(2, &wrong, 100), (11, false, true));
    assert_eq!(asked(2, &right, 103), (9, true, false));
    assert_eq!(asked(3, &right, 103), (0, true, false));
    assert_eq!(asked(2, &wrong[..4], 100), (8, false, true));
    assert_eq!(asked(COUNT_LIMIT, &wrong, 99), (8, false, true));
    assert_eq!(asked(2, &wrong[..3], 99), (8, false, true));
}

#[test]
fn shown_set() {
    let owned = Owned::plan_a();
    let shown = |ends, members: &[usize]| text_of(set_text(owned.input(), ends, members));
    assert_eq!(shown((0, 4), &[2, 3]), "set 2 3 count 3\n");
    assert_eq!(shown((0, 4), &[]), "set count 0\n");
    assert_eq!(shown((0, 5), &[1]), "refused 6\n");
}
