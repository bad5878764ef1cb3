//! Pair, loads and busiest where readings are dropped: small plans, cause 14, T around h, cause 9 for some h
//! alone, blocks of detours, and drawn plans.

use super::refusals::OPERATIONS;
use super::{Case, LabelledPlan, Operation};
use crate::call_cases::Called;
use crate::stale::{
    detours_around, drawn_stale_plans, ladders_around, plan_a, some_detours, stale_blocks,
    KNOWN_TERMS, STALE_PLANS, WRONG_TERMS, WRONG_TURNAROUND_TERMS,
};

pub fn cases() -> Vec<Case> {
    [
        examples(),
        terms(),
        before_keeping(),
        keeping_before_call(),
        keeping_before_too_many(),
        around(),
        ladders(),
        blocks(),
        drawn(),
    ]
    .concat()
}

/// From the first station to the last, loads and busiest of the plans by hand; every pair of those of 4 stations in
/// which a walk calls twice at one.
fn examples() -> Vec<Case> {
    let mut cases = Vec::new();
    for stale in STALE_PLANS {
        let (plan, last) = (stale.labelled(), stale.last() as u16);
        match (last, stale.calls_twice()) {
            (3, true) => cases.extend(plan.every_call()),
            _ => cases.extend([plan.pair(0, last), plan.loads(), plan.busiest()]),
        }
    }
    cases.into_iter().map(|case| case.stating(0)).collect()
}

/// Each operation on plan A with g and h in their limits, and with h outside of them.
fn terms() -> Vec<Case> {
    let mut cases = Vec::new();
    for operation in OPERATIONS {
        let on = |label: &str, terms: (u16, u16), number: u8| {
            let case = plan_a(label, terms).case(operation);
            case.longer([2, 1, 3]).stating(number)
        };
        cases.extend(KNOWN_TERMS.map(|terms| on("plan A", terms, 0)));
        cases.extend(WRONG_TERMS.map(|terms| on("14 for plan A", terms, 14)));
    }
    cases
}

/// Causes 1 to 5 each with 14, and with 6, 7 and 8 too; and 12 with 14.
fn before_keeping() -> Vec<Case> {
    let mut cases = Vec::new();
    for cause in 1..=5 {
        let faulty = |before: &str, terms: (u16, u16), operation: Operation| {
            let plan = plan_a(&format!("{cause} before {before}"), terms);
            plan.case(operation).longer([1, 2, 3]).faulty(cause)
        };
        for (operation, terms) in OPERATIONS.into_iter().zip([(1, 0), (16, 15), (1, 256)]) {
            cases.push(faulty("14", terms, operation));
        }
        let all = faulty("14, 6, 7 and 8", (3, 2), Operation::Pair(300, 300));
        cases.push(all.lent([1, 0, 2]));
    }
    for operation in OPERATIONS {
        let on = |terms| plan_a("12 before 14", terms).case(operation);
        cases.extend(WRONG_TURNAROUND_TERMS.map(|terms| on(terms).longer([2, 1, 3]).stating(12)));
    }
    cases
}

/// 14 with 6, with 7, with 8 of each table, and with all; then these with h in its limits.
fn keeping_before_call() -> Vec<Case> {
    let mut cases = Vec::new();
    for (terms, refused) in [((1, 0), true), ((2, 65535), true), ((16, 16), false)] {
        let mut push = |before: &str, operation: Operation, short: &[usize], other: u8| {
            let plan = plan_a(&format!("14 before {before}"), terms);
            let case = plan.case(operation).shorter(short);
            cases.push(case.stating(if refused { 14 } else { other }));
        };
        for ends in [(5, 0), (0, 65535)] {
            push("6", Operation::Pair(ends.0, ends.1), &[], 6);
        }
        push("7", Operation::Pair(3, 3), &[], 7);
        push("6, 7 and 8", Operation::Pair(9, 9), &[0, 2], 6);
        for operation in OPERATIONS {
            let tables = operation.tables();
            for table in &tables {
                push(&format!("8 of length {table}"), operation, &[*table], 8);
            }
            push("8 of all", operation, &tables, 8);
        }
    }
    cases
}

/// 14 with 9: a ladder of 65 layers.
fn keeping_before_too_many() -> Vec<Case> {
    let (ladder, _) = ladders_around().remove(5);
    let case = |(operation, keeping): (Operation, u16)| {
        let label = format!("14 before 9, g 1, h {keeping}");
        let plan = LabelledPlan {
            label,
            ..ladder.clone()
        };
        let case = plan.keeping_for(keeping).case(operation);
        case.longer([1, 1, 1]).stating(14)
    };
    let calls = OPERATIONS.into_iter().zip([0, 256, 65535]);
    calls.map(case).collect()
}

/// Detours with T around h, and plans of detours.
fn around() -> Vec<Case> {
    let mut cases = Vec::new();
    for plan in detours_around() {
        cases.extend([plan.pair(0, 3), plan.loads(), plan.busiest()]);
    }
    for plan in some_detours(61) {
        cases.push(plan.pair(0, 3));
    }
    cases.into_iter().map(|case| case.stating(0)).collect()
}

/// Cause 9 for some h alone; loads looks at every source.
fn ladders() -> Vec<Case> {
    let mut cases = Vec::new();
    for (plan, number) in ladders_around() {
        for end in [1, 128] {
            cases.push(plan.pair(0, end).longer([3, 0, 2]).stating(number));
        }
        let loads = plan.loads().longer([1, 2, 3]);
        cases.push(loads.marked(4321).stating(number));
    }
    cases
}

/// A detour for each two stations, in blocks of which most are not even.
fn blocks() -> Vec<Case> {
    let mut cases = Vec::new();
    for plan in stale_blocks() {
        let last = plan.sizes.0 - 1;
        cases.extend([plan.pair(0, last), plan.loads(), plan.busiest()]);
    }
    cases.into_iter().map(|case| case.stating(0)).collect()
}

/// Every call on drawn plans.
fn drawn() -> Vec<Case> {
    let mut cases = Vec::new();
    for (index, plan) in drawn_stale_plans(6).iter().enumerate() {
        let calls = plan.every_call().into_iter();
        cases.extend(calls.map(|case| case.marked(800 + index as u16)));
    }
    cases
}
