//! Every number alone and with 17, two and more of the others in one call, and memory of every length near the named
//! one.

use super::{Case, Position};
use crate::lent::scratch_length;
use crate::pair_cases::{faulty_plans, near_lengths, LabelledPlan};
use crate::reach_cases::sent_ladder;
use crate::stale::{plan_a, WRONG_TERMS, WRONG_TURNAROUND_TERMS};
use crate::turned::WRONG_TURNAROUNDS;

pub fn cases() -> Vec<Case> {
    [
        plans(),
        plan_before_call(),
        terms(),
        terms_before_lengths(),
        lengths(),
        lengths_before_position(),
        before_too_many(),
    ]
    .concat()
}

/// A position of plan A, the first that is none, and far ones.
const POSITIONS: [u64; 4] = [10, 12, 65535, u64::MAX];

/// Causes 1 to 5, some with a position of the plan and some with 17.
fn plans() -> Vec<Case> {
    let mut cases = Vec::new();
    for (index, (plan, (stations, slots), number)) in faulty_plans().enumerate() {
        let position = [0, 8192, u64::MAX][index % 3];
        let scratch = scratch_length(stations.into(), slots.into());
        let case = plan.struck(position).lent([stations.into(), scratch]);
        cases.push(case.longer([2, 3]).stating(number));
    }
    cases
}

/// Causes 1 to 5 with 17, with 12 and 17, with 14 and 17, and with 12, 14, 8 and 17.
fn plan_before_call() -> Vec<Case> {
    let mut cases = Vec::new();
    for cause in 1..=5 {
        for position in POSITIONS {
            let on = |before: &str, terms: (u16, u16)| {
                let plan = plan_a(&format!("{cause} before {before}"), terms);
                plan.longer_struck(position).faulty(cause)
            };
            cases.push(on("17", (1, 255)));
            cases.push(on("12 and 17", (17, 255)));
            cases.push(on("14 and 17", (2, 1)));
            cases.push(on("12, 14, 8 and 17", (0, 256)).lent([4, 99]));
        }
    }
    cases
}

/// 12 and 14, at a position of the plan and with 17; and both.
fn terms() -> Vec<Case> {
    let mut cases = Vec::new();
    let mut push = |label: &str, terms: (u16, u16), number: u8| {
        let plan = plan_a(label, terms);
        let struck = |position| plan.longer_struck(position).stating(number);
        cases.extend([3, 12, u64::MAX].map(struck));
    };
    for turnaround in WRONG_TURNAROUNDS {
        push("12", (turnaround, 255), 12);
    }
    for terms in WRONG_TERMS {
        push("14", terms, 14);
    }
    for terms in WRONG_TURNAROUND_TERMS {
        push("12 before 14", terms, 12);
    }
    cases.dedup_by(|one, other| one.label == other.label);
    cases
}

/// The tables that are too short in turn: the changes, the scratch, and both.
const SHORT: [&[usize]; 3] = [&[0], &[1], &[0, 1]];

/// 12 and 14 with 8, and with 17.
fn terms_before_lengths() -> Vec<Case> {
    let mut cases = Vec::new();
    for (terms, number) in [((17, 255), 12), ((1, 0), 14), ((16, 256), 14)] {
        for short in SHORT {
            for position in [10, 12] {
                let plan = plan_a(&format!("{number} before 8 of {short:?}"), terms);
                cases.push(plan.struck(position).shorter(short).stating(number));
            }
        }
    }
    cases
}

/// Plan A with g = 1 and h = 255.
fn kept(label: &str) -> LabelledPlan {
    LabelledPlan {
        label: label.to_string(),
        ..plan_a("", (1, 255))
    }
}

/// Cause 8: each table one entry too short, with half of its entries and with none; exactly long enough, and longer.
fn lengths() -> Vec<Case> {
    let mut cases = Vec::new();
    for (table, name) in ["changes", "scratch"].into_iter().enumerate() {
        let named = kept("").struck(5).lengths[table];
        for (label, longer, length, number) in near_lengths(named) {
            let case = kept(&format!("{label} {name}")).struck(5);
            let case = case.longer([longer; 2]).with_length(table, length);
            cases.push(case.marked(500 + table as u16).stating(number));
        }
    }
    cases.push(kept("8 for no entry").struck(5).lent([0; 2]).stating(8));
    for (words, length) in [("n(T+1)", 25), ("4nT", 80)] {
        let case = kept(&format!("8 for a scratch of {words} entries")).struck(5);
        cases.push(case.with_length(1, length).stating(8));
    }
    for mark in [0, 1, 65535] {
        let exact = kept(&format!("exactly long enough, mark {mark}")).struck(5);
        cases.push(exact.marked(mark).stating(0));
        let longer = kept(&format!("10 entries more, mark {mark}")).struck(5);
        cases.push(longer.longer([10; 2]).marked(mark).stating(0));
        let none = kept(&format!("17, mark {mark}")).struck(12);
        cases.push(none.longer([10; 2]).marked(mark).stating(17));
    }
    cases
}

/// 8 with 17; the same tables with the position of a record are 8 too, and longer ones 17.
fn lengths_before_position() -> Vec<Case> {
    let mut cases = Vec::new();
    for position in POSITIONS {
        for short in SHORT {
            let plan = kept(&format!("8 of {short:?}"));
            cases.push(plan.struck(position).shorter(short).stating(8));
        }
        let number = if position < 12 { 0 } else { 17 };
        let exact = kept("no table is short").struck(position);
        cases.push(exact.stating(number));
    }
    cases
}

/// A ladder of 65 layers, which has 9: 12, 14, 8 and 17 before it.
fn before_too_many() -> Vec<Case> {
    let ladder = sent_ladder(65, 2);
    let plan = |label: &str| LabelledPlan::built(label, &ladder);
    let records = ladder.contacts() as u64;
    let mut cases = Vec::new();
    for position in [records, 65535, u64::MAX] {
        cases.push(plan("17 before 9").longer_struck(position).stating(17));
        let turned = plan("12 before 17 and 9").turning(17);
        cases.push(turned.longer_struck(position).stating(12));
        let dropping = plan("14 before 17 and 9").keeping_for(0);
        cases.push(dropping.longer_struck(position).stating(14));
    }
    for position in [0, records] {
        for short in SHORT {
            let case = plan(&format!("8 of {short:?} before 9")).struck(position);
            cases.push(case.shorter(short).stating(8));
        }
    }
    let last = plan("9 at the last position").longer_struck(records - 1);
    assert_eq!(last.operation, Position(257));
    cases.push(last.stating(9));
    cases
}
