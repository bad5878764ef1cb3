//! P1 to P10 and the printed loads of plan A, with g = 1 and with g = 2.

use super::support::Owned;
use crate::answer::number;
use crate::cases::{doubled, PLAN_A};
use crate::loads::Load;
use crate::means::{COUNT_LIMIT, LISTED};
use crate::one_way::ONE_WAY_PLANS;
use crate::pair::PairValues;
use crate::plan::check;
use crate::shortest::walks_to_appearance;
use crate::show::{loads_text, pair_text, reach_text, text_of};
use crate::walk::walks_from;
use crate::ways::{Found, Way};

/// Every path of a pair, by first way and next way until "last" or "none".
fn listed(owned: &Owned, source: usize, destination: usize) -> Vec<Vec<u16>> {
    let mut buffer = vec![9; owned.slots];
    let mut scratch = vec![9; owned.scratch_length()];
    let mut list = Vec::new();
    let mut ask = |way: Way, buffer: &mut [u16]| {
        LISTED.way(
            way,
            owned.input(),
            (source, destination),
            buffer,
            &mut scratch,
        )
    };
    let mut answer = ask(Way::First, &mut buffer);
    while let Ok(Found::Walk(hops)) = answer {
        list.push(buffer[..usize::from(hops)].to_vec());
        assert!(list.len() <= 10, "no end after {list:?}");
        answer = ask(Way::Next, &mut buffer);
    }
    let end = if list.is_empty() {
        Found::NoWalk
    } else {
        Found::Last
    };
    assert_eq!(answer, Ok(end));
    list
}

#[test]
fn plan_a_bytes() {
    let hexadecimal = "000100000001 000100000002 000100010000 000100020000 \
                       000200010003 000200020003 000200030001 000200030002 \
                       000300020003 000300030002 000400030004 000400040003";
    let digits: String = hexadecimal.split_whitespace().collect();
    let byte = |at: usize| u8::from_str_radix(&digits[at..at + 2], 16).unwrap();
    let bytes: Vec<u8> = (0..digits.len()).step_by(2).map(byte).collect();
    assert_eq!(Owned::plan_a().bytes, bytes);
    assert_eq!(bytes, include_bytes!("../../../plans/a.plan"));
    let contacts = [
        (1, 0, 1),
        (1, 0, 2),
        (2, 1, 3),
        (2, 2, 3),
        (3, 2, 3),
        (4, 3, 4),
    ];
    assert_eq!(doubled(&contacts), PLAN_A);
}

#[test]
fn p1_empty_plan() {
    let reached = Owned::new(1, 1, &[]).reach(COUNT_LIMIT, 0).unwrap();
    assert_eq!(reached.station(0), (0, 1));
    assert_eq!(reached.appearance(0, 0), (0, 1));
    assert_eq!(reached.appearance(0, 1), (65535, 0));
}

#[test]
fn p2_stations() {
    let reached = Owned::plan_a().reach(COUNT_LIMIT, 0).unwrap();
    assert_eq!(reached.station(0), (0, 1));
    assert_eq!(reached.station(3), (2, 3));
    assert_eq!(reached.station(4), (3, 3));
}

#[test]
fn p3_appearance() {
    let owned = Owned::plan_a();
    let reached = owned.reach(COUNT_LIMIT, 0).unwrap();
    assert_eq!(reached.appearance(2, 3), (3, 2));
    assert_eq!(reached.station(2), (1, 1));
    let walks = walks_from(&owned.plan(), 0);
    let walks = walks_to_appearance(&walks, 2, 3);
    let twice = walks.iter().filter(|walk| !walk.is_path());
    let twice: Vec<&[usize]> = twice.map(|walk| walk.stations.as_slice()).collect();
    assert_eq!(twice, [[0, 2, 3, 2]]);
}

#[test]
fn p4_paths() {
    let list = listed(&Owned::plan_a(), 0, 4);
    assert_eq!(list, [[0, 4, 10], [1, 5, 10], [1, 8, 10]]);
}

#[test]
fn p5_through_counts() {
    let paired = Owned::plan_a().pair(COUNT_LIMIT, 0, 4).unwrap();
    assert_eq!(paired.values, PairValues { hops: 3, count: 3 });
    assert_eq!(paired.through, [0, 1, 2, 3, 0]);
}

#[test]
fn p6_no_path() {
    let owned = Owned::plan_a();
    assert!(listed(&owned, 2, 1).is_empty());
    let paired = owned.pair(COUNT_LIMIT, 2, 1).unwrap();
    let none = PairValues {
        hops: 65535,
        count: 0,
    };
    assert_eq!(paired.values, none);
    assert_eq!(paired.through, [0, 0, 0, 0, 0]);
}

#[test]
fn p7_next_way() {
    let owned = Owned::plan_a();
    let mut scratch = vec![9; owned.scratch_length()];
    let mut next = |offered: [u16; 4]| {
        let mut buffer = offered;
        let input = owned.input();
        let answer = LISTED.way(Way::Next, input, (0, 4), &mut buffer, &mut scratch);
        (answer, buffer)
    };
    assert_eq!(next([1, 8, 10, 77]), (Ok(Found::Last), [1, 8, 10, 77]));
    assert_eq!(next([1, 5, 10, 77]), (Ok(Found::Walk(3)), [1, 8, 10, 77]));
    let (answer, buffer) = next([0, 5, 10, 77]);
    assert_eq!((number(&answer), buffer), (10, [0, 5, 10, 77]));
}

#[test]
fn p8_bad_records() {
    let mut repeated = PLAN_A.to_vec();
    repeated.insert(3, PLAN_A[2]);
    let with_itself = [(1, 2, 2)];
    let number_of = |owned: Owned| number(&check(owned.input()));
    assert_eq!(number_of(Owned::new(5, 4, &repeated)), 5);
    assert_eq!(number_of(Owned::new(5, 4, &with_itself)), 4);
}

#[test]
fn p9_loads_with_turnaround_1() {
    let owned = Owned::plan_a().turning(1);
    let loads = owned.loads(COUNT_LIMIT).unwrap();
    let entry = |pairs, load| Load { pairs, load };
    let expected = [
        entry(0, 0),
        entry(2, 2863311530),
        entry(2, 5726623060),
        entry(4, 17179869184),
        entry(0, 0),
    ];
    assert_eq!(loads, expected);
    assert_eq!(owned.busiest(COUNT_LIMIT), Ok(3));
    let printed = "stations 5 slots 4 contacts 12\n\
                   0 0 0\n\
                   1 2 2863311530\n\
                   2 2 5726623060\n\
                   3 4 17179869184\n\
                   4 0 0\n";
    assert_eq!(text_of(loads_text(LISTED, owned.input())), printed);
}

#[test]
fn p10_one_slot() {
    let owned = Owned::doubled(3, 1, &[(1, 0, 1), (1, 1, 2)]);
    assert!(listed(&owned, 0, 2).is_empty());
    assert_eq!(owned.pair(COUNT_LIMIT, 0, 2).unwrap().values.hops, 65535);
}

#[test]
fn one_record_leads_one_way() {
    let owned = Owned::new(2, 1, &[(1, 0, 1)]);
    assert_eq!(listed(&owned, 0, 1), [[0]]);
    assert!(listed(&owned, 1, 0).is_empty());
    let reached = owned.reach(COUNT_LIMIT, 1).unwrap();
    assert_eq!(reached.station(0), (65535, 0));
}

#[test]
fn one_way_plans_have_the_paths_stated() {
    for plan in ONE_WAY_PLANS {
        let (owned, last) = (plan.owned(), plan.last().into());
        assert_eq!(listed(&owned, 0, last), plan.there, "{}", plan.label);
        assert_eq!(listed(&owned, last, 0), plan.back, "{}", plan.label);
    }
}

/// Document 02: doubled plan A with turnaround 2 has no path from 0 to 4, and the loads of C-20.
#[test]
fn plan_a_with_turnaround_2() {
    let owned = Owned::plan_a().turning(2);
    assert!(listed(&owned, 0, 4).is_empty());
    assert_eq!(listed(&owned, 0, 3), [[1, 8]]);
    let printed = "stations 5 slots 4 contacts 12\n\
                   0 0 0\n\
                   1 0 0\n\
                   2 1 4294967296\n\
                   3 2 8589934592\n\
                   4 0 0\n";
    assert_eq!(text_of(loads_text(LISTED, owned.input())), printed);
    assert_eq!(owned.busiest(COUNT_LIMIT), Ok(3));
}

#[test]
fn shown_pair() {
    let owned = Owned::plan_a();
    let shown = "hops 3\ncount 3\nthrough 0 1 2 3 0\npath 0 4 10\npath 1 5 10\npath 1 8 10\n";
    assert_eq!(text_of(pair_text(owned.input(), (0, 4))), shown);
    assert_eq!(text_of(pair_text(owned.input(), (0, 5))), "refused 6\n");
    let none = "hops 65535\ncount 0\nthrough 0 0 0 0 0\n";
    assert_eq!(text_of(pair_text(owned.input(), (2, 1))), none);
    let turned = owned.clone().turning(2);
    assert_eq!(text_of(pair_text(turned.input(), (0, 4))), none);
    let wrong = owned.turning(17);
    assert_eq!(text_of(pair_text(wrong.input(), (0, 5))), "refused 12\n");
}

#[test]
fn shown_reach() {
    let owned = Owned::plan_a();
    let shown = "station 0 hops 0 count 1\n\
                 station 1 hops 1 count 1\n\
                 station 2 hops 1 count 1\n\
                 station 3 hops 2 count 3\n\
                 station 4 hops 3 count 3\n\
                 row 0 1 0 0 0 0\n\
                 row 1 0 1 0 0 0\n\
                 row 2 0 1 0 2 0\n\
                 row 3 0 0 2 1 0\n\
                 row 4 0 0 0 0 3\n";
    assert_eq!(text_of(reach_text(owned.input(), 0)), shown);
    assert_eq!(text_of(reach_text(owned.input(), 5)), "refused 6\n");
}
