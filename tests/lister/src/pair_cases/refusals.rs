//! The refusals of pair, loads and busiest, alone and two in one call, and memory of every length
//! near the named one.

use super::{Case, LabelledPlan, Operation};
use crate::call_cases::Called;
use crate::cases::PLAN_A;
use crate::plan::within_limits;
use crate::reach_cases::{bytes_with_cause, plan_faults, sent_ladder};

pub fn cases() -> Vec<Case> {
    [
        plans(),
        plan_before_call(),
        stations(),
        same_station(),
        two_in_the_call(),
        lengths(),
        before_too_many(),
    ]
    .concat()
}

/// A call of each operation.
pub const OPERATIONS: [Operation; 3] =
    [Operation::Pair(0, 4), Operation::Loads, Operation::Busiest];

fn plan_a(label: &str) -> LabelledPlan {
    LabelledPlan::of_records(label, (5, 4), &PLAN_A)
}

/// The plans with causes 1 to 5, the n and T of the memory that is lent, and the numbers. Where n and T have no named
/// lengths, those of plan A are lent.
pub fn faulty_plans() -> impl Iterator<Item = (LabelledPlan, (u16, u16), u8)> {
    plan_faults().into_iter().map(|fault| {
        let sizes = (fault.stations, fault.slots);
        let mut plan = LabelledPlan::new(&fault.label, sizes, fault.bytes);
        plan.counting = fault.counting;
        let limits = within_limits(sizes.0.into(), sizes.1.into());
        let lent = if limits.is_ok() { sizes } else { (5, 4) };
        (plan, lent, fault.stated.unwrap_or(0))
    })
}

/// Causes 1 to 5, each through every operation.
fn plans() -> Vec<Case> {
    let mut cases = Vec::new();
    for (plan, lent, number) in faulty_plans() {
        for operation in OPERATIONS {
            let case = plan.case(operation).lent(operation.named(lent));
            cases.push(case.longer([2, 1, 3]).stating(number));
        }
    }
    cases
}

/// Causes 1 to 5 each with 6, 7 and 8.
fn plan_before_call() -> Vec<Case> {
    let faulty = |cause: u8, before: &str| {
        let label = format!("{cause} before {before}");
        match cause {
            1 => LabelledPlan::of_records(&label, (257, 4), &PLAN_A),
            _ => LabelledPlan::new(&label, (5, 4), bytes_with_cause(cause)),
        }
    };
    let mut cases = Vec::new();
    for cause in 1..=5 {
        let mut push = |before: &str, operation: Operation, lengths: [usize; 3]| {
            let case = faulty(cause, before).case(operation).lent(lengths);
            cases.push(case.stating(cause));
        };
        push("6", Operation::Pair(0, 257), [9, 0, 110]);
        push("6", Operation::Pair(65535, 0), [9, 0, 110]);
        push("7", Operation::Pair(2, 2), [9, 0, 110]);
        push("6, 7 and 8", Operation::Pair(300, 300), [1, 0, 2]);
        for operation in OPERATIONS {
            push("8 of all", operation, [0; 3]);
            push("8 of scratch", operation, [9, 9, 99]);
        }
        push("8 of the table", Operation::Pair(0, 4), [4, 0, 110]);
        push("8 of the first table", Operation::Loads, [4, 9, 110]);
        push("8 of the second table", Operation::Loads, [9, 4, 110]);
    }
    cases
}

/// Cause 6: either station, both, and both equal.
fn stations() -> Vec<Case> {
    let pairs = [
        (5, 0),
        (0, 5),
        (5, 6),
        (6, 1),
        (4, 256),
        (256, 4),
        (65535, 4),
        (0, 65535),
        (65535, 65534),
        (5, 5),
        (65535, 65535),
    ];
    let case = |(source, destination): (u16, u16)| {
        let case = plan_a("6 for stations of plan A").pair(source, destination);
        case.longer([2, 0, 1]).stating(6)
    };
    pairs.into_iter().map(case).collect()
}

/// Cause 7: each station of plan A, one without contacts, and the only one.
fn same_station() -> Vec<Case> {
    let of_plan_a = |station: u16| plan_a("7 for stations of plan A").pair(station, station);
    let mut cases: Vec<Case> = (0..5).map(of_plan_a).collect();
    let empty = LabelledPlan::of_records("7 for an empty plan", (1, 1), &[]);
    cases.push(empty.pair(0, 0));
    let alone = LabelledPlan::of_records("7 for a station alone", (6, 4), &PLAN_A);
    cases.push(alone.pair(5, 5));
    let with_memory = |case: Case| case.longer([1, 0, 2]).stating(7);
    cases.into_iter().map(with_memory).collect()
}

/// Causes 6 and 7 with 8.
fn two_in_the_call() -> Vec<Case> {
    let mut cases = Vec::new();
    let memory = [("table", 0, 4), ("scratch", 2, 99)];
    for (name, table, length) in memory {
        let mut push = |before: &str, source: u16, destination: u16, number: u8| {
            let plan = plan_a(&format!("{before} before 8 of {name}"));
            let case = plan.pair(source, destination).with_length(table, length);
            cases.push(case.stating(number));
        };
        push("6", 5, 0, 6);
        push("6", 0, 5, 6);
        push("6 and 7", 5, 5, 6);
        push("7", 3, 3, 7);
    }
    let empty = |label: &str| plan_a(label).pair(0, 0).lent([0; 3]);
    cases.push(empty("7 before 8 of all").stating(7));
    cases
}

/// Lengths of a table with so many named entries: words of a label, the entries behind the named ones of the other tables,
/// the length, and the number.
pub fn near_lengths(named: usize) -> [(&'static str, usize, usize, u8); 6] {
    [
        ("8 for one entry less of", 0, named - 1, 8),
        ("8 for others longer than", 9, named - 1, 8),
        ("8 for no entry of", 0, 0, 8),
        ("8 for half of", 0, named / 2, 8),
        ("one entry more of", 0, named + 1, 0),
        ("40 entries more of", 0, named + 40, 0),
    ]
}

/// Cause 8: each table and the scratch one entry too short, exactly long enough, and longer.
fn lengths() -> Vec<Case> {
    let mut cases = Vec::new();
    for operation in OPERATIONS {
        let on = |label: &str| plan_a(label).case(operation);
        for table in operation.tables() {
            let name = ["first table", "second table", "scratch"][table];
            let named = on("").lengths[table];
            for (label, longer, length, number) in near_lengths(named) {
                let case = on(&format!("{label} {name}")).longer([longer; 3]);
                let case = case.with_length(table, length).stating(number);
                cases.push(case.marked(500 + table as u16));
            }
        }
        cases.push(on("8 for no entry").lent([0; 3]).stating(8));
        let area = on("8 for a scratch of n(T+1) entries");
        cases.push(area.with_length(2, 25).stating(8));
        let slots = on("8 for a scratch of 4nT entries");
        cases.push(slots.with_length(2, 80).stating(8));
        for mark in [0, 1, 65535] {
            let label = format!("exactly long enough, mark {mark}");
            cases.push(on(&label).marked(mark).stating(0));
            let label = format!("10 entries more, mark {mark}");
            let longer = on(&label).longer([10; 3]);
            cases.push(longer.marked(mark).stating(0));
        }
    }
    cases
}

/// Causes 6 to 8 with 9: a ladder of 65 layers.
fn before_too_many() -> Vec<Case> {
    let on = |label: &str| LabelledPlan::built(label, &sent_ladder(65, 2));
    let mut cases = vec![
        on("6 before 9").pair(0, 131).stating(6),
        on("6 before 9").pair(131, 0).stating(6),
        on("7 before 9").pair(0, 0).stating(7),
    ];
    for operation in OPERATIONS {
        for table in operation.tables() {
            let case = on(&format!("8 before 9, length {table}")).case(operation);
            let short = case.lengths[table] - 1;
            cases.push(case.with_length(table, short).stating(8));
        }
    }
    cases
}
