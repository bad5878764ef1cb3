//! Pair, loads and busiest with turnarounds: small plans, cause 12, T around the turnaround, ladders,
//! limits and blocks, counts around 2^64, all plans of two links in four slots, and drawn plans.

use super::limits::counted_where_large;
use super::refusals::OPERATIONS;
use super::{Case, LabelledPlan, Operation};
use crate::call_cases::Called;
use crate::cases::{valid_records, Record, PLAN_A};
use crate::plan::LEAST_TURNAROUND;
use crate::random::Random;
use crate::reach_cases::{
    every_slot, exact_plans, most_turnaround, sent_ladder, spaced_ladder, spaced_sent_ladder, star,
    CORNERS, SPACED_LADDERS,
};
use crate::turned::{
    drawn_plans, rows_around, spaced_row, two_links, TURNAROUNDS, TURNED_PLANS, WRONG_TURNAROUNDS,
};

pub fn cases() -> Vec<Case> {
    [calls(), exact()].concat()
}

/// The cases but for the plans around 2^64 walks.
pub fn calls() -> Vec<Case> {
    [
        examples(),
        turnarounds(),
        plan_before_turnaround(),
        turnaround_before_call(),
        turnaround_before_too_many(),
        around(),
        ladders(),
        limits(),
        blocks(),
        tiny(),
        drawn(),
    ]
    .concat()
}

fn plan_a(label: &str, turnaround: u16) -> LabelledPlan {
    let label = format!("{label}, g {turnaround}");
    LabelledPlan::of_records(&label, (5, 4), &PLAN_A).turning(turnaround)
}

/// Every call on the plans by hand, and on plan A with further turnarounds.
fn examples() -> Vec<Case> {
    let mut cases = Vec::new();
    for turned in TURNED_PLANS {
        cases.extend(turned.labelled().every_call());
    }
    for turnaround in [3, 16] {
        cases.extend(plan_a("plan A", turnaround).every_call());
    }
    cases.into_iter().map(|case| case.stating(0)).collect()
}

/// Each operation on plan A with turnarounds in their limits and outside of them.
fn turnarounds() -> Vec<Case> {
    let mut cases = Vec::new();
    for operation in OPERATIONS {
        let on = |label: &str, turnaround: u16, number: u8| {
            let case = plan_a(label, turnaround).case(operation);
            case.longer([2, 1, 3]).stating(number)
        };
        let accepted = TURNAROUNDS.into_iter().filter(|g| (1..=16).contains(g));
        cases.extend(accepted.map(|turnaround| on("longer", turnaround, 0)));
        let refused = WRONG_TURNAROUNDS.into_iter();
        cases.extend(refused.map(|turnaround| on("12 for plan A", turnaround, 12)));
    }
    cases
}

/// Causes 1 to 5 each with 12, and with 6, 7 and 8 too.
fn plan_before_turnaround() -> Vec<Case> {
    let mut cases = Vec::new();
    for cause in 1..=5 {
        for turnaround in [0, 17, 65535] {
            let faulty = |before: &str, operation: Operation| {
                let plan = plan_a(&format!("{cause} before {before}"), turnaround);
                plan.case(operation).longer([1, 2, 3]).faulty(cause)
            };
            for operation in OPERATIONS {
                cases.push(faulty("12", operation));
            }
            let all = faulty("12, 6, 7 and 8", Operation::Pair(300, 300));
            cases.push(all.lent([1, 0, 2]));
        }
    }
    cases
}

/// 12 with 6, with 7, with 8 of each table, and with all; then these with a turnaround in its limits.
fn turnaround_before_call() -> Vec<Case> {
    let mut cases = Vec::new();
    for (turnaround, refused) in [(0, true), (17, true), (65535, true), (16, false)] {
        let mut push = |before: &str, operation: Operation, short: &[usize], other: u8| {
            let plan = plan_a(&format!("12 before {before}"), turnaround);
            let case = plan.case(operation).shorter(short);
            cases.push(case.stating(if refused { 12 } else { other }));
        };
        for ends in [(5, 0), (0, 5), (65535, 4)] {
            push("6", Operation::Pair(ends.0, ends.1), &[], 6);
        }
        push("6 and 7", Operation::Pair(5, 5), &[], 6);
        push("7", Operation::Pair(3, 3), &[], 7);
        push("7 and 8", Operation::Pair(3, 3), &[0, 2], 7);
        push("6, 7 and 8", Operation::Pair(9, 9), &[0, 2], 6);
        for operation in OPERATIONS {
            let tables = operation.tables();
            for table in &tables {
                push(&format!("8 of length {table}"), operation, &[*table], 8);
            }
            push("8 of all", operation, &tables, 8);
        }
    }
    cases
}

/// 12 with 9: a ladder of 65 layers.
fn turnaround_before_too_many() -> Vec<Case> {
    let mut cases = Vec::new();
    for (operation, turnaround) in OPERATIONS.into_iter().zip([0, 17, 65535]) {
        let plan = LabelledPlan::built("12 before 9", &sent_ladder(65, 2));
        let case = plan.turning(turnaround).case(operation);
        cases.push(case.longer([1, 1, 1]).stating(12));
    }
    cases
}

/// Rows of stations in every slot, T around the turnaround.
fn around() -> Vec<Case> {
    let mut cases = Vec::new();
    for plan in rows_around() {
        cases.extend([plan.pair(0, 3), plan.pair(0, 2), plan.loads()]);
    }
    cases.into_iter().map(|case| case.stating(0)).collect()
}

/// Ladders whose layers are a turnaround apart, and two whose layers are nearer.
fn ladders() -> Vec<Case> {
    let mut cases = Vec::new();
    for (turnaround, layers, width, number) in SPACED_LADDERS {
        let label = format!("spaced ladder of {layers} layers, {width} wide, g {turnaround}");
        let builder = spaced_sent_ladder(turnaround, layers, width);
        let plan = LabelledPlan::built(&label, &builder);
        let last = (width * layers) as u16;
        cases.push(plan.pair(0, last).stating(number));
        if number == 9 || turnaround == 16 {
            cases.push(plan.loads().stating(number));
        }
    }
    let doubled = LabelledPlan::built("spaced ladder, g 2", &spaced_ladder(2, 64, 2));
    cases.extend([doubled.pair(0, 128), doubled.pair(128, 0)].map(|case| case.stating(0)));
    let near = LabelledPlan::built("ladder of 9 layers, g 2", &sent_ladder(9, 2));
    let nearer = spaced_sent_ladder(15, 9, 2);
    let nearer = LabelledPlan::built("spaced ladder of 9 layers, g 16", &nearer);
    for plan in [near.turning(2), nearer.turning(16)] {
        cases.extend([plan.pair(0, 18), plan.loads()].map(|case| case.stating(0)));
    }
    cases
}

/// n 256 and T 255, with few records and with 8,192.
fn limits() -> Vec<Case> {
    let on = |label: &str, records: &[Record], turnaround: u16| {
        let label = format!("n 256, T 255, {label}, g {turnaround}");
        LabelledPlan::of_records(&label, (256, 255), records).turning(turnaround)
    };
    let star = on("8192 records, 0 meets all", &star(), 2).counted();
    let spread = on("8192 records in every slot", &every_slot(), 16).counted();
    let mut cases = vec![star.loads(), spread.pair(240, 239)];
    assert!(cases.iter().all(|case| case.bytes.len() == 6 * 8192));
    for turnaround in [2, 16] {
        let corners = on("corners", &CORNERS, turnaround);
        for ends in [(0, 254), (254, 0), (1, 254), (254, 1)] {
            cases.push(corners.pair(ends.0, ends.1));
        }
        cases.push(corners.loads());
        let row = spaced_row(turnaround);
        let last = row.len() as u16;
        let row = on("row", &row, turnaround).counted();
        cases.extend([row.pair(0, last), row.pair(last, 0), row.busiest()]);
    }
    cases.into_iter().map(|case| case.stating(0)).collect()
}

/// n, T and g at which the stations do not divide evenly into blocks: what waits takes room of them.
pub const TURNED_BLOCKS: [(u16, u16, u16); 9] = [
    (5, 3, 2),
    (7, 4, 2),
    (7, 5, 3),
    (33, 8, 2),
    (33, 8, 4),
    (64, 20, 16),
    (256, 9, 4),
    (256, 127, 2),
    (256, 255, 16),
];

/// The seed of the drawn records; each label names it.
const SEED: u64 = 19;

/// Plans of these sizes in which a pair has most stations interior, and drawn ones of some.
fn blocks() -> Vec<Case> {
    let mut random = Random::new(SEED);
    let mut cases = Vec::new();
    for (stations, slots, turnaround) in TURNED_BLOCKS {
        let on = |label: &str, records: &[Record]| {
            let label = format!("blocks n {stations}, T {slots}, g {turnaround}{label}");
            let plan = LabelledPlan::of_records(&label, (stations, slots), records);
            counted_where_large(plan.turning(turnaround))
        };
        let (source, destination) = (stations / 2, stations / 2 + 1);
        let plan = on(
            "",
            &between(stations, slots, turnaround, source, destination),
        );
        cases.extend([plan.pair(source, destination), plan.loads()]);
        if (33..=64).contains(&stations) {
            let wanted = 3 * usize::from(stations) + 20;
            let records = valid_records(&mut random, stations.into(), slots.into(), wanted);
            cases.push(on(&format!(", seed {SEED}"), &records).loads());
        }
    }
    cases.into_iter().map(|case| case.stating(0)).collect()
}

/// The source sends to the others in slot 1. Of each three neighbours two send to the destination when they
/// have waited, and one of these in the slot after too; of the first and the last station both do so.
fn between(
    stations: u16,
    slots: u16,
    turnaround: u16,
    source: u16,
    destination: u16,
) -> Vec<Record> {
    let mut records = Vec::new();
    let others = (0..stations).filter(|v| *v != source && *v != destination);
    for station in others {
        records.push((1, source, station));
        let is_outer = station == 0 || station + 1 == stations;
        if is_outer || station % 3 > 0 {
            records.push((1 + turnaround, station, destination));
        }
        if (is_outer || station % 3 == 1) && turnaround + 2 <= slots {
            records.push((2 + turnaround, station, destination));
        }
    }
    records.sort_unstable();
    records
}

/// Counts around 2^64: with turnaround 2 some of the plans whose hops are so far apart, and those with the
/// largest turnaround. A plan whose hops are nearer has few walks.
fn exact() -> Vec<Case> {
    let mut cases = Vec::new();
    for (index, exact) in exact_plans(64, 2).into_iter().enumerate() {
        let plan = LabelledPlan::built(&exact.label, &exact.builder);
        let end = exact.builder.sizes().0 - 1;
        if index % 3 == 0 || exact.label.contains("sent on") {
            let pair = plan.pair(0, end).stating(exact.number);
            cases.push(pair.longer([3, 0, 2]));
        } else if index % 3 == 1 && exact.number == 9 {
            cases.push(plan.loads().stating(9));
        }
    }
    for exact in most_turnaround() {
        let plan = LabelledPlan::built(&exact.label, &exact.builder);
        let end = exact.builder.sizes().0 - 1;
        cases.push(match exact.number {
            0 => plan.pair(0, end).stating(0),
            number => plan.loads().stating(number),
        });
    }
    let nearer = &exact_plans(64, LEAST_TURNAROUND)[0];
    let label = format!("{} by g 1, g 2", nearer.label);
    let plan = LabelledPlan::built(&label, &nearer.builder).turning(2);
    cases.push(plan.loads().stating(0));
    cases
}

/// All plans of two links in four slots with turnaround 2, and every third one with 3.
fn tiny() -> Vec<Case> {
    let mut cases = Vec::new();
    for (turnaround, step) in [(2, 1), (3, 3)] {
        for plan in two_links().into_iter().step_by(step) {
            let label = format!("{}, g {turnaround}", plan.label);
            let plan = LabelledPlan { label, ..plan }.turning(turnaround);
            cases.push(plan.pair(0, 2).stating(0));
        }
    }
    cases
}

/// Every call on drawn plans with turnarounds drawn.
fn drawn() -> Vec<Case> {
    let mut cases = Vec::new();
    for (index, plan) in drawn_plans(15).iter().enumerate() {
        let calls = plan.every_call().into_iter();
        cases.extend(calls.map(|case| case.marked(700 + index as u16)));
    }
    cases
}
