//! Reach with turnarounds: small plans, cause 12, T around the turnaround, ladders and limits, counts
//! around 2^64, all plans of two stations and three slots, and drawn plans.

use super::exact::{exact_plans, most_turnaround, Exact};
use super::ladders::{sent_ladder, spaced_sent_ladder, SPACED_LADDERS};
use super::limits::{every_slot, CORNERS};
use super::refusals::bytes_with_cause;
use super::{Case, Counting, Operation};
use crate::cases::{Record, PLAN_A};
use crate::pair_cases::LabelledPlan;
use crate::plan::LEAST_TURNAROUND;
use crate::plans::all_plans;
use crate::turned::{
    drawn_plans, rows_around, spaced_row, two_links, TURNAROUNDS, TURNED_PLANS, WRONG_TURNAROUNDS,
};

pub fn cases() -> Vec<Case> {
    [
        examples(),
        turnarounds(),
        plan_before_turnaround(),
        turnaround_before_call(),
        around(),
        ladders(),
        limits(),
        exact(),
        tiny(),
        drawn(),
    ]
    .concat()
}

/// Reach on a plan, from a source.
pub fn from(plan: &LabelledPlan, source: u16) -> Case {
    let label = format!("{}, from {source}", plan.label);
    let case = Case::on_bytes(&label, plan.sizes, plan.bytes.clone(), source);
    let case = case.turning(plan.turnaround).keeping_for(plan.keeping);
    Case {
        counting: plan.counting,
        ..case
    }
}

/// Plan A with a turnaround, on longer tables.
fn plan_a(label: &str, turnaround: u16) -> Case {
    let label = format!("{label}, g {turnaround}");
    let case = Case::on_records(&label, (5, 4), &PLAN_A, 0);
    case.turning(turnaround).longer([2, 1, 3, 2])
}

/// The plans by hand from every source.
fn examples() -> Vec<Case> {
    let mut cases = Vec::new();
    for turned in TURNED_PLANS {
        let plan = turned.labelled();
        cases.extend((0..turned.sizes.0).map(|source| from(&plan, source).stating(0)));
    }
    cases
}

/// Plan A with turnarounds in their limits and outside of them.
fn turnarounds() -> Vec<Case> {
    let accepted = TURNAROUNDS.into_iter().filter(|g| (1..=16).contains(g));
    let accepted = accepted.map(|g| plan_a("plan A, longer", g).stating(0));
    let refused = WRONG_TURNAROUNDS.into_iter();
    let refused = refused.map(|g| plan_a("12 for plan A", g).stating(12));
    accepted.chain(refused).collect()
}

/// Causes 1 to 5 each with 12, and with 6 and 8 too.
fn plan_before_turnaround() -> Vec<Case> {
    let mut cases = Vec::new();
    for cause in 1..=5 {
        for turnaround in [0, 17, 65535] {
            let faulty = |before: &str| {
                let mut case = plan_a(&format!("{cause} before {before}"), turnaround);
                match cause {
                    1 => case.slots = 256,
                    _ => case.bytes = bytes_with_cause(cause),
                }
                case.stating(cause)
            };
            cases.push(faulty("12"));
            let mut all = faulty("12, 6 and 8");
            all.operation = Operation::Reach(65535);
            cases.push(all.lent([0; 4]));
        }
    }
    cases
}

/// 12 with 6, with 8 of each table, with both, and with 9; then 6, 8 and 9 with a turnaround in its limits.
fn turnaround_before_call() -> Vec<Case> {
    let mut cases = Vec::new();
    for (turnaround, number) in [(0, 12), (17, 12), (65535, 12), (16, 0)] {
        let stated = |case: Case, other: u8| match number {
            12 => case.stating(12),
            _ => case.stating(other),
        };
        let on = |before: &str| plan_a(&format!("12 before {before}"), turnaround);
        let mut station = on("6");
        station.operation = Operation::Reach(5);
        cases.push(stated(station, 6));
        let mut both = on("6 and 8");
        both.operation = Operation::Reach(65535);
        cases.push(stated(both.lent([0; 4]), 6));
        for table in 0..4 {
            let case = on(&format!("8 of table {table}"));
            let short = [24, 24, 4, 4][table];
            cases.push(stated(case.with_length(table, short), 8));
        }
    }
    for turnaround in [0, 17] {
        let label = format!("12 before 9, g {turnaround}");
        let ladder = sent_ladder(65, 2).case(&label).turning(turnaround);
        cases.push(ladder.stating(12));
    }
    cases
}

/// A row of stations in every slot, T around the turnaround.
fn around() -> Vec<Case> {
    let rows = rows_around();
    let rows = rows.iter().map(|plan| from(plan, 0).stating(0));
    rows.collect()
}

/// Some of the ladders whose layers are a turnaround apart, and two whose layers are nearer.
fn ladders() -> Vec<Case> {
    let mut cases = Vec::new();
    for (turnaround, layers, width, number) in SPACED_LADDERS {
        if number == 0 && [2, 6].contains(&turnaround) {
            continue;
        }
        let builder = spaced_sent_ladder(turnaround, layers, width);
        let last = builder.entries().station(width * layers);
        let count = (width as u128).pow(layers as u32 - 1);
        assert_eq!((last.hops, last.count), (layers as u16, count));
        let label = format!("spaced ladder of {layers} layers, {width} wide, g {turnaround}");
        cases.push(builder.case(&label).stating(number));
    }
    let near = sent_ladder(9, 2).case("ladder of 9 layers, g 2");
    cases.push(near.turning(2).stating(0));
    let nearer = spaced_sent_ladder(15, 9, 2).case("spaced ladder of 9 layers, g 16");
    cases.push(nearer.turning(16).stating(0));
    cases
}

/// n 256 and T 255, with few records and with 8,192.
fn limits() -> Vec<Case> {
    let on = |label: &str, records: &[Record], turnaround: u16, source: u16| {
        let label = format!("n 256, T 255, {label}, g {turnaround}");
        let plan = LabelledPlan::of_records(&label, (256, 255), records);
        from(&plan.turning(turnaround), source).stating(0)
    };
    let full = on("8192 records in every slot", &every_slot(), 16, 240);
    assert_eq!(full.bytes.len(), 6 * 8192);
    let mut cases = vec![Case {
        counting: Counting::Fast,
        ..full
    }];
    for turnaround in [2, 16] {
        cases.extend([0, 254, 255].map(|source| on("corners", &CORNERS, turnaround, source)));
        let row = spaced_row(turnaround);
        cases.push(on("row", &row, turnaround, 0));
    }
    cases
}

/// Counts around 2^64: with turnaround 2 some of the plans whose hops are so far apart, and 2^64 with the
/// largest turnaround. A plan whose hops are nearer has few walks.
fn exact() -> Vec<Case> {
    let plans = exact_plans(64, 2);
    let waiting = |plan: &&Exact| plan.label.contains("sent on");
    let others = plans.iter().filter(|plan| !waiting(plan)).step_by(6);
    let chosen = plans.iter().filter(waiting).chain(others);
    let mut cases: Vec<Case> = chosen.map(Exact::case).collect();
    let refused = most_turnaround();
    let refused = refused.iter().filter(|plan| plan.number == 9);
    cases.extend(refused.map(Exact::case));
    let nearer = &exact_plans(64, LEAST_TURNAROUND)[0];
    let label = format!("{} by g 1, g 2", nearer.label);
    cases.push(nearer.builder.case(&label).turning(2).stating(0));
    cases
}

/// All plans of two stations and three slots, and every other one of two links in four.
fn tiny() -> Vec<Case> {
    let mut cases = Vec::new();
    for (index, owned) in all_plans(2, 3).into_iter().enumerate() {
        for (turnaround, source) in [(2, 0), (3, 1)] {
            let label = format!("two stations {index}, g {turnaround}");
            let case = Case::on_bytes(&label, (2, 3), owned.bytes.clone(), source);
            cases.push(case.turning(turnaround).stating(0));
        }
    }
    for (index, plan) in two_links().into_iter().step_by(2).enumerate() {
        let turnaround = 2 + (index % 2) as u16;
        let label = format!("{}, g {turnaround}", plan.label);
        let case = Case::on_bytes(&label, plan.sizes, plan.bytes, 0);
        cases.push(case.turning(turnaround).stating(0));
    }
    cases
}

/// Drawn plans with turnarounds drawn.
fn drawn() -> Vec<Case> {
    let plans = drawn_plans(50).into_iter().enumerate();
    let case = |(index, plan): (usize, LabelledPlan)| {
        let source = (index % usize::from(plan.sizes.0)) as u16;
        from(&plan, source).marked(700 + index as u16).stating(0)
    };
    plans.map(case).collect()
}
