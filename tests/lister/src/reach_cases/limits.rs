//! Reach at n 256 and T 255, with few records and with 8,192.

use super::Case;
use crate::cases::{doubled, Record, PLAN_A};

const SIZES: (u16, u16) = (256, 255);

pub fn cases() -> Vec<Case> {
    [few_records(), many_records(), lengths(), narrow()].concat()
}

/// An accepted case at the limits.
fn on(label: &str, records: &[Record], source: u16) -> Case {
    Case::on_records(label, SIZES, records, source).stating(0)
}

/// Contacts of the first and the last stations in the first and the last slots, in both directions.
pub const CORNERS: [Record; 12] = [
    (1, 0, 255),
    (1, 255, 0),
    (2, 254, 255),
    (2, 255, 254),
    (254, 0, 1),
    (254, 0, 255),
    (254, 1, 0),
    (254, 255, 0),
    (255, 0, 255),
    (255, 254, 255),
    (255, 255, 0),
    (255, 255, 254),
];

/// In slot t, t − 1 meets t.
pub fn rising_row() -> Vec<Record> {
    let meetings: Vec<Record> = (1..=255).map(|slot| (slot, slot - 1, slot)).collect();
    doubled(&meetings)
}

/// In slot t, 256 − t sends to 255 − t.
pub fn falling_row() -> Vec<Record> {
    (1..=255)
        .map(|slot| (slot, 256 - slot, 255 - slot))
        .collect()
}

fn few_records() -> Vec<Case> {
    let mut cases = Vec::new();
    for source in [0, 1, 128, 255] {
        let label = format!("n 256, T 255, empty plan, from {source}");
        cases.push(on(&label, &[], source));
    }
    for source in [0, 254, 255] {
        let label = format!("n 256, T 255, last record, from {source}");
        cases.push(on(&label, &[(255, 255, 254)], source));
    }
    for source in [0, 1, 254, 255] {
        let label = format!("n 256, T 255, corners, from {source}");
        cases.push(on(&label, &CORNERS, source));
    }
    for source in [0, 2] {
        let label = format!("plan A with n 256, T 255, from {source}");
        cases.push(on(&label, &PLAN_A, source));
    }
    for (name, records) in [("rising", rising_row()), ("falling", falling_row())] {
        for source in [0, 255] {
            let label = format!("n 256, T 255, 255 hops, {name}, from {source}");
            cases.push(on(&label, &records, source));
        }
    }
    cases
}

/// In slot t, 0 meets t; so many of the others meet in slot 1 that there are 8,192 records.
pub fn star() -> Vec<Record> {
    let of_a = |a: u16| (a + 1..256).map(move |b| (1, a, b));
    let mut meetings: Vec<Record> = vec![(1, 0, 1)];
    meetings.extend((1..256).flat_map(of_a).take(4096 - 255));
    meetings.extend((2..=255).map(|slot| (slot, 0, slot)));
    doubled(&meetings)
}

/// Stations 0 to 15 meet one station each in slot 1; 16 others meet one each in every slot.
pub fn every_slot() -> Vec<Record> {
    let mut meetings: Vec<Record> = (0..16).map(|a| (1, a, 255 - a)).collect();
    for slot in 1..=255 {
        meetings.extend((0..16).map(|a| (slot, 80 + 16 * (slot % 8) + a, 239 - a)));
    }
    doubled(&meetings)
}

fn many_records() -> Vec<Case> {
    let (star, spread) = (star(), every_slot());
    for records in [&star, &spread] {
        assert_eq!(records.len(), 8192);
    }
    vec![
        on("8192 records, 0 meets all in turn, from 255", &star, 255),
        on("8192 records in every slot, from 240", &spread, 240),
    ]
}

/// The largest tables: one entry too short, and longer.
fn lengths() -> Vec<Case> {
    let mut cases = Vec::new();
    for table in 0..4 {
        let label = format!("n 256, T 255, table {table} one entry short");
        let mut case = on(&label, &CORNERS, 0).stating(8);
        case.lengths[table] -= 1;
        cases.push(case);
    }
    let longest = on("n 256, T 255, corners, longer tables", &CORNERS, 0);
    cases.push(longest.longer([64, 63, 62, 61]));
    cases
}

/// n and T at opposite limits.
fn narrow() -> Vec<Case> {
    let meetings: Vec<Record> = (1..=8).map(|slot| (slot, 0, 1)).collect();
    let slots = doubled(&meetings);
    let sends: Vec<Record> = (1..256).map(|b| (1, 0, b)).collect();
    let hears: Vec<Record> = (1..256).map(|a| (1, a, 0)).collect();
    let mut cases = vec![
        Case::on_records("n 1, T 255, empty plan", (1, 255), &[], 0),
        Case::on_records("n 2, T 8, all slots, from 0", (2, 8), &slots, 0),
        Case::on_records("n 2, T 8, all slots, from 1", (2, 8), &slots, 1),
    ];
    for (name, records) in [("0 sends to all", sends), ("0 hears all", hears)] {
        for source in [0, 9] {
            let label = format!("n 256, T 1, {name}, from {source}");
            cases.push(Case::on_records(&label, (256, 1), &records, source));
        }
    }
    cases.into_iter().map(|case| case.stating(0)).collect()
}
