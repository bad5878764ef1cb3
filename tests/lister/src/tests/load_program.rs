//! The texts of the load programs.

use std::collections::BTreeSet;

use super::support::{random_plan, tiny_plans, Owned};
use crate::cases::{plan_bytes, Record, PLAN_A};
use crate::load_cases::stretched;
use crate::load_program::{accepted_plan, is_listed, load_text, load_text_by, number_of_walks};
use crate::means::{COUNTED, LISTED};
use crate::plan::{Terms, KEPT};
use crate::random::Random;
use crate::show::{loads_text, text_of};
use crate::walk::walks_from;

fn text(turnaround: usize, records: &[Record]) -> String {
    load_text(turnaround, &plan_bytes(records))
}

/// P9.
#[test]
fn plan_a_is_printed_as_document_01_does_with_turnaround_1() {
    let whole = "stations 5 slots 4 contacts 12\n\
                 0 0 0\n\
                 1 2 2863311530\n\
                 2 2 5726623060\n\
                 3 4 17179869184\n\
                 4 0 0\n";
    assert_eq!(text(1, &PLAN_A), whole);
}

#[test]
fn plan_a_is_printed_as_document_02_does_with_turnaround_2() {
    let whole = "stations 5 slots 4 contacts 12\n\
                 0 0 0\n\
                 1 0 0\n\
                 2 1 4294967296\n\
                 3 2 8589934592\n\
                 4 0 0\n";
    assert_eq!(text(2, &PLAN_A), whole);
}

/// With 3 only slot 4 may follow slot 1, and no station that hears in slot 1 sends in slot 4.
#[test]
fn plan_a_has_no_loads_with_a_larger_turnaround() {
    let whole = "stations 5 slots 4 contacts 12\n0 0 0\n1 0 0\n2 0 0\n3 0 0\n4 0 0\n";
    for turnaround in 3..=16 {
        assert_eq!(text(turnaround, &PLAN_A), whole, "{turnaround}");
    }
}

#[test]
fn empty_input_has_one_station_and_one_slot() {
    let whole = "stations 1 slots 1 contacts 0\n0 0 0\n";
    for turnaround in 1..=16 {
        assert_eq!(text(turnaround, &[]), whole);
    }
}

#[test]
fn n_and_t_come_from_the_records() {
    for turnaround in [1, 2, 16] {
        let named = |records: &[Record]| {
            let plan = accepted_plan(turnaround, &plan_bytes(records)).unwrap();
            assert_eq!(
                plan.terms,
                Terms {
                    turnaround,
                    keeping: KEPT
                }
            );
            (plan.stations, plan.slots)
        };
        assert_eq!(named(&[(1, 0, 1)]), (2, 1));
        assert_eq!(named(&[(63, 3, 31)]), (32, 63));
        assert_eq!(named(&[(63, 31, 3)]), (32, 63));
        assert_eq!(named(&[(2, 0, 9), (5, 1, 2), (6, 0, 3)]), (10, 6));
        assert_eq!(named(&[]), (1, 1));
    }
}

/// Turnarounds outside of their limits; some are inside of them in their low bits.
const WRONG: [usize; 9] = [0, 17, 255, 256, 257, 65535, 65536, 65537, usize::MAX];

/// Every cause of an input is before 12, so it is told with any turnaround.
#[test]
fn refusals_are_one_line() {
    for turnaround in [1, 2, 16].into_iter().chain(WRONG) {
        let text = |records: &[Record]| text(turnaround, records);
        let of_zeros = |length: usize| load_text(turnaround, &vec![0; length]);
        assert_eq!(of_zeros(1), "refused 2\n");
        assert_eq!(text(&[(1, 0, 65535)]), "refused 1\n");
        assert_eq!(text(&[(1, 65535, 65535)]), "refused 1\n");
        assert_eq!(text(&[(0, 0, 1)]), "refused 1\n");
        assert_eq!(text(&[(2, 0, 1), (1, 0, 1)]), "refused 3\n");
        assert_eq!(text(&[(1, 65535, 0)]), "refused 1\n");
        assert_eq!(text(&[(1, 1, 1)]), "refused 4\n");
        assert_eq!(text(&[(1, 0, 1), (1, 0, 1)]), "refused 5\n");
        assert_eq!(of_zeros(6_144), "refused 1\n");
        assert_eq!(of_zeros(6_150), "refused 2\n");
        assert_eq!(of_zeros(100_000), "refused 2\n");
        let larger_first = text(&[(1, 1, 0)]);
        match WRONG.contains(&turnaround) {
            true => assert_eq!(larger_first, "refused 12\n"),
            false => assert!(larger_first.starts_with("stations 2 slots 1 contacts 1\n")),
        }
    }
}

#[test]
fn twelve_where_everything_before_it_is_right() {
    for turnaround in WRONG {
        assert_eq!(text(turnaround, &[]), "refused 12\n");
        assert_eq!(text(turnaround, &PLAN_A), "refused 12\n");
        assert!(accepted_plan(turnaround, &plan_bytes(&PLAN_A)).is_err());
    }
}

#[test]
fn walks_are_numbered_as_listed() {
    let mut random = Random::new(11);
    for _ in 0..500 {
        let plan = random_plan(&mut random).plan();
        let listed = (0..plan.stations).map(|source| walks_from(&plan, source).len());
        assert_eq!(number_of_walks(&plan), listed.sum::<usize>() as u128);
    }
    let meetings: Vec<Record> = (1..=250).map(|slot| (slot, 0, 1)).collect();
    let plan = Owned::doubled(2, 250, &meetings).plan();
    assert_eq!(number_of_walks(&plan), u128::MAX);
    assert!(!is_listed(&plan));
}

/// Listed and counted alike, with each turnaround; the three of them print different loads for some plans.
#[test]
fn tiny_plans_are_printed_alike() {
    let mut different = [0; 4];
    for owned in tiny_plans() {
        let bytes = &owned.bytes;
        let texts = [1, 2, 3].map(|turnaround| {
            let listed = load_text_by(LISTED, turnaround, bytes);
            assert_eq!(load_text_by(COUNTED, turnaround, bytes), listed);
            assert_eq!(load_text(turnaround, bytes), listed, "{owned:?}");
            let plan = accepted_plan(turnaround, bytes).unwrap();
            if (plan.stations, plan.slots) == (owned.stations, owned.slots) {
                let turned = owned.clone().turning(turnaround);
                assert_eq!(text_of(loads_text(LISTED, turned.input())), listed);
            }
            listed
        });
        different[BTreeSet::from(texts).len()] += 1;
    }
    assert!(different[1] > 1000 && different[2] > 1000, "{different:?}");
}

/// Hops in slots 1 and 3: station 1 has a load with 1 and 2, and none with 3.
#[test]
fn two_hops_are_printed_with_the_turnarounds_between_them() {
    let records = [(1, 0, 1), (3, 1, 2)];
    let heading = "stations 3 slots 3 contacts 2\n";
    for (turnaround, inner) in [
        (1, "1 1 4294967296"),
        (2, "1 1 4294967296"),
        (3, "1 0 0"),
        (4, "1 0 0"),
    ] {
        let whole = format!("{heading}0 0 0\n{inner}\n2 0 0\n");
        assert_eq!(text(turnaround, &records), whole);
    }
}

/// With a turnaround a stretched plan has the lines that the plan has with 1; with one more some are different.
#[test]
fn stretched_plans_print_the_loads_of_turnaround_1() {
    let below = |text: &str| text.split_once('\n').unwrap().1.to_string();
    let mut random = Random::new(12);
    let mut slower = 0;
    for _ in 0..400 {
        let bytes = random_plan(&mut random).bytes;
        let plain = below(&load_text(1, &bytes));
        for turnaround in [1, 2, 3, 7, 15] {
            let stretched = stretched(turnaround, &bytes);
            assert_eq!(below(&load_text(turnaround, &stretched)), plain);
            slower += usize::from(below(&load_text(turnaround + 1, &stretched)) != plain);
        }
    }
    assert!(slower > 200, "{slower}");
}
