//! Through set at n 256 and T 255, with few records and with 8,192; and sizes with a small scratch.

use super::Case;
use crate::cases::{doubled, Record, PLAN_A};
use crate::pair_cases::{dense, LabelledPlan};
use crate::reach_cases::{falling_row, rising_row, star, CORNERS};

pub fn cases() -> Vec<Case> {
    let mut cases = few_records();
    cases.extend(many_records());
    cases.extend(narrow());
    let mut cases: Vec<Case> = cases.into_iter().map(|case| case.stating(0)).collect();
    cases.extend(lengths());
    cases
}

/// A plan at the limits.
fn on(label: &str, records: &[Record]) -> LabelledPlan {
    LabelledPlan::of_records(&format!("n 256, T 255, {label}"), (256, 255), records)
}

/// The stations from one to another.
fn from_to(first: usize, last: usize) -> Vec<usize> {
    (first..=last).collect()
}

fn few_records() -> Vec<Case> {
    let empty = on("empty plan", &[]);
    let corners = on("corners", &CORNERS);
    let plan_a = on("plan A", &PLAN_A);
    let row = on("row", &rising_row());
    let falling = on("falling row", &falling_row());
    let mut cases = vec![
        empty.through((0, 255), &from_to(0, 255)),
        plan_a.through((0, 4), &[2, 255]),
        plan_a.through((0, 4), &from_to(4, 255)),
        row.through((0, 255), &from_to(0, 255)),
        row.through((0, 255), &[254]),
        row.through((0, 255), &[0, 255]),
        row.through((255, 0), &from_to(0, 255)),
        falling.through((255, 0), &from_to(0, 255)),
        falling.through((200, 100), &from_to(0, 100)),
        falling.through((200, 100), &from_to(200, 255)),
        falling.through((200, 100), &[199, 255]),
        falling.through((0, 255), &from_to(0, 255)),
    ];
    for pair in [(0, 254), (254, 0), (1, 254), (254, 1), (255, 1)] {
        cases.push(corners.through(pair, &[0, 255]));
        cases.push(corners.through(pair, &from_to(1, 254)));
    }
    cases
}

fn many_records() -> Vec<Case> {
    let star = on("8192 records, star", &star()).counted();
    let dense = LabelledPlan::of_records("n 64, T 127, 8192 records", (64, 127), &dense());
    let dense = dense.counted();
    let cases = vec![
        star.through((1, 255), &[0]),
        dense.through((0, 63), &from_to(0, 31)),
    ];
    assert!(cases.iter().all(|case| case.bytes.len() == 6 * 8192));
    cases
}

/// Many stations in one slot and in two, where the scratch is smallest for its set.
fn narrow() -> Vec<Case> {
    let first: Vec<Record> = (1..256).map(|b| (1, 0, b)).collect();
    let one = LabelledPlan::of_records("n 256, T 1", (256, 1), &doubled(&first));
    let mut second = first[..254].to_vec();
    second.extend((1..255).map(|a| (2, a, 255)));
    let two = LabelledPlan::of_records("n 256, T 2", (256, 2), &second);
    let even: Vec<usize> = (0..256).step_by(2).collect();
    vec![
        one.through((9, 200), &from_to(0, 255)),
        one.through((0, 255), &from_to(0, 255)),
        two.through((0, 255), &from_to(0, 255)),
        two.through((0, 255), &even),
        two.through((0, 255), &[1]),
        two.through((0, 255), &[254, 255]),
        two.through((0, 255), &[]),
        two.through((255, 0), &even),
    ]
}

/// The largest memory: one entry too short, and longer.
fn lengths() -> Vec<Case> {
    let plan = on("corners", &CORNERS);
    let case = |words: &str| plan.through((0, 254), &[255]).labelled(words);
    let exact = case("");
    let short_set = exact.set[..255].to_vec();
    let last_wrong = [&exact.set[..255], &[2]].concat();
    let (short_set, last_wrong) = (
        case(", set one byte short").of_set(short_set),
        case(", last byte 2").of_set(last_wrong),
    );
    vec![
        case(", scratch one short")
            .lent(exact.scratch - 1)
            .stating(8),
        short_set.stating(8),
        last_wrong.stating(11),
        case(", longer").behind(&[255; 64]).marked(5, 56).stating(0),
    ]
}
