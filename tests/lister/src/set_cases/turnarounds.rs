//! Through set with turnarounds: small plans, cause 12, T around the turnaround, ladders and limits, counts
//! around 2^64, plans of two links in four slots, and drawn plans.

use super::small::of_plan;
use super::Case;
use crate::cases::{Record, PLAN_A};
use crate::pair_cases::LabelledPlan;
use crate::random::Random;
use crate::reach_cases::{
    bytes_with_cause, every_slot, exact_plans, most_turnaround, sent_ladder, spaced_sent_ladder,
    star, Exact, CORNERS, SPACED_LADDERS,
};
use crate::turned::{
    drawn_plans, rows_around, spaced_row, two_links, TURNAROUNDS, TURNED_PLANS, WRONG_TURNAROUNDS,
};

pub fn cases() -> Vec<Case> {
    [
        examples(),
        turnarounds(),
        plan_before_turnaround(),
        turnaround_before_call(),
        turnaround_before_too_many(),
        around(),
        ladders(),
        limits(),
        exact(),
        tiny(),
        drawn(),
    ]
    .concat()
}

/// Plan A from 0 to 3 with the set of stations 1 and 2, on a longer scratch.
fn plan_a(label: &str, turnaround: u16) -> Case {
    let label = format!("{label}, g {turnaround}");
    let plan = LabelledPlan::of_records(&label, (5, 4), &PLAN_A);
    let case = plan.turning(turnaround).through((0, 3), &[1, 2]);
    case.marked(900 + turnaround % 50, 3)
}

/// A set with a wrong byte.
fn wrong_set() -> Vec<u8> {
    vec![0, 1, 2, 0, 0]
}

/// From the first station to the last of the plans by hand: all stations, and each one between them.
fn examples() -> Vec<Case> {
    let mut cases = Vec::new();
    for turned in TURNED_PLANS {
        let (plan, last) = (turned.labelled(), turned.last());
        let all: Vec<usize> = (0..=last.into()).collect();
        cases.push(plan.through((0, last), &all));
        let inner = all[1..last.into()].iter();
        cases.extend(inner.map(|member| plan.through((0, last), &[*member])));
    }
    cases.into_iter().map(|case| case.stating(0)).collect()
}

/// Plan A with turnarounds in their limits and outside of them.
fn turnarounds() -> Vec<Case> {
    let accepted = TURNAROUNDS.into_iter().filter(|g| (1..=16).contains(g));
    let accepted = accepted.map(|g| plan_a("longer", g).stating(0));
    let refused = WRONG_TURNAROUNDS.into_iter();
    let refused = refused.map(|g| plan_a("12 for plan A", g).stating(12));
    accepted.chain(refused).collect()
}

/// Causes 1 to 5 each with 12, and with 6, 7, 8 and 11 too.
fn plan_before_turnaround() -> Vec<Case> {
    let mut cases = Vec::new();
    for cause in 1..=5 {
        for turnaround in [0, 17, 65535] {
            let faulty = |before: &str| {
                let mut case = plan_a(&format!("{cause} before {before}"), turnaround);
                match cause {
                    1 => case.stations = 257,
                    _ => case.bytes = bytes_with_cause(cause),
                }
                case.stating(cause)
            };
            cases.push(faulty("12"));
            let mut all = faulty("12, 6, 7, 8 and 11").of_set(vec![2]).lent(1);
            (all.source, all.destination) = (300, 300);
            cases.push(all);
        }
    }
    cases
}

/// 12 with 6, 7, 8 and 11, each alone and all; then these with a turnaround in its limits.
fn turnaround_before_call() -> Vec<Case> {
    let mut cases = Vec::new();
    for (turnaround, refused) in [(0, true), (17, true), (65535, true), (16, false)] {
        let mut push = |before: &str, ends: (u16, u16), change: fn(Case) -> Case, other: u8| {
            let mut case = plan_a(&format!("12 before {before}"), turnaround);
            (case.source, case.destination) = ends;
            cases.push(change(case).stating(if refused { 12 } else { other }));
        };
        let short_set = |case: Case| case.of_set(vec![1; 4]);
        push("6 of the source", (5, 0), |case| case, 6);
        push("6 of the destination", (0, 65535), |case| case, 6);
        push("7", (2, 2), |case| case, 7);
        push("8 of the set", (0, 3), short_set, 8);
        push("8 of the scratch", (0, 3), |case| case.lent(99), 8);
        push("11", (0, 3), |case| case.of_set(wrong_set()), 11);
        let all = |case: Case| case.of_set(vec![2; 4]).lent(0);
        push("6, 8 and 11", (5, 0), all, 6);
        push("7, 8 and 11", (2, 2), all, 7);
        push("8 and 11", (0, 3), all, 8);
    }
    cases
}

/// 12 with 9 and with 11: a ladder of 65 layers.
fn turnaround_before_too_many() -> Vec<Case> {
    let on = |label: &str, turnaround: u16| {
        let plan = LabelledPlan::built(&format!("12 before {label}"), &sent_ladder(65, 2));
        plan.turning(turnaround).through((0, 130), &[1, 2])
    };
    let mut both = on("11 and 9", 17);
    both.set[130] = 2;
    vec![on("9", 0).stating(12), both.stating(12)]
}

/// Rows of stations in every slot, T around the turnaround.
fn around() -> Vec<Case> {
    let mut cases = Vec::new();
    for plan in rows_around() {
        cases.push(plan.through((0, 3), &[1, 2]).stating(0));
        cases.push(plan.through((0, 2), &[1]).stating(0));
    }
    cases
}

/// Ladders whose layers are a turnaround apart, and one whose layers are nearer: a layer, and a station.
fn ladders() -> Vec<Case> {
    let mut cases = Vec::new();
    for (turnaround, layers, width, number) in SPACED_LADDERS {
        let label = format!("spaced ladder of {layers}, g {turnaround}");
        let builder = spaced_sent_ladder(turnaround, layers, width);
        let plan = LabelledPlan::built(&label, &builder);
        let ends = (0, (width * layers) as u16);
        let layer: Vec<usize> = (1 + width..=2 * width).collect();
        cases.push(plan.through(ends, &layer).stating(number));
        if number == 0 {
            cases.push(plan.through(ends, &[1, 1 + width]).stating(0));
        }
    }
    let near = LabelledPlan::built("ladder of 9 layers, g 2", &sent_ladder(9, 2)).turning(2);
    cases.push(near.through((0, 18), &[1, 2]).stating(0));
    cases
}

/// n 256 and T 255, with few records and with 8,192.
fn limits() -> Vec<Case> {
    let on = |label: &str, records: &[Record], turnaround: u16| {
        let label = format!("n 256, T 255, {label}, g {turnaround}");
        LabelledPlan::of_records(&label, (256, 255), records).turning(turnaround)
    };
    let star = on("8192 records, star", &star(), 2).counted();
    let spread = on("8192 records in every slot", &every_slot(), 16).counted();
    let upper: Vec<usize> = (96..224).collect();
    let mut cases = vec![
        star.through((1, 255), &[0]),
        spread.through((240, 239), &upper),
    ];
    assert!(cases.iter().all(|case| case.bytes.len() == 6 * 8192));
    for turnaround in [2, 16] {
        let corners = on("corners", &CORNERS, turnaround);
        cases.extend([(0, 254), (254, 0)].map(|ends| corners.through(ends, &[0, 255])));
        let row = spaced_row(turnaround);
        let last = row.len() as u16;
        let row = on("row", &row, turnaround);
        cases.push(row.through((0, last), &[usize::from(last) - 1]));
        cases.push(row.through((0, last), &[0, last.into()]));
    }
    cases.into_iter().map(|case| case.stating(0)).collect()
}

/// Counts around 2^64: with turnaround 2 some of the plans whose hops are so far apart, and an accepted one
/// with the largest turnaround; with all stations and with one in turn.
fn exact() -> Vec<Case> {
    let plans = exact_plans(64, 2);
    let waiting = |plan: &&Exact| plan.label.contains("sent on");
    let others = plans.iter().filter(|plan| !waiting(plan)).step_by(3);
    let most = most_turnaround();
    let accepted = most.iter().filter(|plan| plan.number == 0);
    let chosen = plans.iter().filter(waiting).chain(others).chain(accepted);
    let case = |(index, exact): (usize, &Exact)| {
        let plan = LabelledPlan::built(&exact.label, &exact.builder);
        let stations = usize::from(exact.builder.sizes().0);
        let all: Vec<usize> = (0..stations).collect();
        let members = if index % 2 == 0 { &all[..] } else { &all[1..2] };
        let case = plan.through((0, stations as u16 - 1), members);
        case.marked(7, 2).stating(exact.number)
    };
    chosen.enumerate().map(case).collect()
}

/// Every fourth plan of two links in four slots.
fn tiny() -> Vec<Case> {
    let mut cases = Vec::new();
    for (index, plan) in two_links().into_iter().step_by(4).enumerate() {
        let turnaround = 2 + (index % 2) as u16;
        let label = format!("{}, g {turnaround}", plan.label);
        let plan = LabelledPlan { label, ..plan }.turning(turnaround);
        cases.push(plan.through((0, 2), &[1]).stating(0));
    }
    cases
}

/// The seed of the members.
const SEED: u64 = 20;

/// Drawn plans with turnarounds drawn, and stations drawn.
fn drawn() -> Vec<Case> {
    let mut random = Random::new(SEED);
    let mut cases = Vec::new();
    for plan in drawn_plans(24) {
        cases.extend(of_plan(&mut random, &plan));
    }
    cases
}
