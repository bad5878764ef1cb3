//! Reach where readings are dropped: small plans, cause 14, T around h, cause 9 for some h alone, blocks of
//! detours, and drawn plans.

use super::refusals::bytes_with_cause;
use super::turnarounds::from;
use super::{Case, Operation};
use crate::pair_cases::LabelledPlan;
use crate::stale::{
    detours_around, drawn_stale_plans, ladders_around, plan_a, some_detours, stale_blocks,
    KNOWN_TERMS, STALE_PLANS, WRONG_TERMS, WRONG_TURNAROUND_TERMS,
};

pub fn cases() -> Vec<Case> {
    [
        examples(),
        terms(),
        before_keeping(),
        keeping_before_call(),
        around(),
        ladders(),
        drawn(),
    ]
    .concat()
}

/// Plan A with g and h, on longer tables.
fn longer(label: &str, terms: (u16, u16)) -> Case {
    from(&plan_a(label, terms), 0).longer([2, 1, 3, 2])
}

/// The plans by hand from every source.
fn examples() -> Vec<Case> {
    let mut cases = Vec::new();
    for stale in STALE_PLANS {
        let plan = stale.labelled();
        cases.extend((0..plan.sizes.0).map(|source| from(&plan, source).stating(0)));
    }
    cases
}

/// Plan A with g and h in their limits, and with h outside of them.
fn terms() -> Vec<Case> {
    let known = KNOWN_TERMS.map(|terms| longer("plan A", terms).stating(0));
    let wrong = WRONG_TERMS.map(|terms| longer("14 for plan A", terms).stating(14));
    known.into_iter().chain(wrong).collect()
}

/// Causes 1 to 5 each with 14, and with 6 and 8 too; and 12 with 14.
fn before_keeping() -> Vec<Case> {
    let mut cases = Vec::new();
    for cause in 1..=5 {
        for terms in [(1, 0), (16, 15), (1, 256)] {
            let mut case = longer(&format!("{cause} before 14"), terms);
            match cause {
                1 => case.slots = 256,
                _ => case.bytes = bytes_with_cause(cause),
            }
            cases.push(case.stating(cause));
        }
    }
    cases.extend(WRONG_TURNAROUND_TERMS.map(|terms| longer("12 before 14", terms).stating(12)));
    cases
}

/// 14 with 6, with 8 of each table, with both, and with 9; then 6 and 8 with h in its limits.
fn keeping_before_call() -> Vec<Case> {
    let mut cases = Vec::new();
    for (terms, refused) in [((1, 0), true), ((2, 65535), true), ((16, 16), false)] {
        let mut push = |before: &str, source: u16, change: &dyn Fn(Case) -> Case, other: u8| {
            let mut case = change(longer(&format!("14 before {before}"), terms));
            case.operation = Operation::Reach(source);
            cases.push(case.stating(if refused { 14 } else { other }));
        };
        push("6", 5, &|case| case, 6);
        push("6 and 8", 65535, &|case| case.lent([0; 4]), 6);
        for (table, short) in [24, 24, 4, 4].into_iter().enumerate() {
            let change = |case: Case| case.with_length(table, short);
            push(&format!("8 of table {table}"), 0, &change, 8);
        }
    }
    let (ladder, _) = ladders_around().remove(5);
    for keeping in [0, 256] {
        let mut case = from(&ladder, 0).keeping_for(keeping);
        case.label = format!("14 before 9, g 1, h {keeping}");
        cases.push(case.stating(14));
    }
    cases
}

/// Detours with T around h, plans of detours, and blocks of them.
fn around() -> Vec<Case> {
    let plans = [detours_around(), some_detours(61)].concat();
    let blocks = stale_blocks().into_iter();
    let blocks = blocks.filter(|plan| plan.sizes.0 < 256);
    let plans = plans.into_iter().chain(blocks);
    plans.map(|plan| from(&plan, 0).stating(0)).collect()
}

/// Cause 9 for some h alone, on longer tables.
fn ladders() -> Vec<Case> {
    let ladders = ladders_around().into_iter();
    let case = |(plan, number)| {
        let case = from(&plan, 0).longer([1, 2, 3, 4]);
        case.marked(4321).stating(number)
    };
    ladders.map(case).collect()
}

/// Drawn plans.
fn drawn() -> Vec<Case> {
    let plans = drawn_stale_plans(12).into_iter().enumerate();
    let case = |(index, plan): (usize, LabelledPlan)| {
        let source = (index % usize::from(plan.sizes.0)) as u16;
        from(&plan, source).marked(800 + index as u16).stating(0)
    };
    plans.map(case).collect()
}
