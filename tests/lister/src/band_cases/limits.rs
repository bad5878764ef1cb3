//! Entries up to 65,535, where a sum passes 16 bits; T 255; and 8,192 records, in one slot and in all.

use super::{table, Case};
use crate::cases::{first_records, Record, PLAN_A};
use crate::pair_cases::LabelledPlan;
use crate::reach_cases::star;

pub fn cases() -> Vec<Case> {
    [carries(), every_slot(), last_slot(), full(), spread()].concat()
}

/// Plan A on entries near 65,535: sums without 16 bits are above every c, also where their low bits are not.
fn carries() -> Vec<Case> {
    let plan = LabelledPlan::of_records("plan A", (5, 4), &PLAN_A);
    let mut cases = Vec::new();
    for (slot, entry, channels, number) in [
        (1, 65531, 65535, 0),
        (1, 65532, 65535, 15),
        (1, 65532, 4, 15),
        (1, 65535, 65535, 15),
        (1, 65535, 5, 15),
        (4, 65533, 65535, 0),
        (4, 65534, 65535, 15),
        (4, 65535, 65534, 15),
        (4, 65535, 4, 15),
        (5, 65535, 65535, 0),
        (5, 65535, 65534, 15),
        (255, 65535, 65535, 0),
        (255, 65535, 9, 15),
    ] {
        let case = plan.taken_in(channels, table(0, &[(slot, entry)]));
        let words = format!(", {entry} in slot {slot}");
        cases.push(case.labelled(&words).stating(number));
    }
    for (words, value, number) in [(", of 65535", 65535, 0), (", of 3", 3, 16)] {
        let case = plan.taken_out(table(value, &[]));
        cases.push(case.labelled(words).stating(number));
    }
    cases
}

/// A record in each of the 255 slots.
fn every_slot() -> Vec<Case> {
    let row: Vec<Record> = (1..=255).map(|slot| (slot, slot - 1, slot)).collect();
    let plan = LabelledPlan::of_records("T 255, row", (256, 255), &row);
    let mut cases = Vec::new();
    for (value, channels, number) in [
        (0, 1, 0),
        (0, 0, 15),
        (65534, 65535, 0),
        (65535, 65535, 15),
        (1, 1, 15),
    ] {
        let case = plan.taken_in(channels, table(value, &[]));
        let words = format!(", on {value}");
        cases.push(case.labelled(&words).stating(number));
    }
    for (words, entries, number) in [
        (", of 1", table(1, &[]), 0),
        (", of 65535", table(65535, &[]), 0),
        (", 0 in slot 1", table(1, &[(1, 0)]), 16),
        (", 0 in slot 128", table(1, &[(128, 0)]), 16),
        (", 0 in slot 255", table(1, &[(255, 0)]), 16),
    ] {
        cases.push(plan.taken_out(entries).labelled(words).stating(number));
    }
    for slot in [1, 128, 255] {
        let case = plan.taken_in(7, table(6, &[(slot, 7)]));
        let words = format!(", 7 in slot {slot}");
        cases.push(case.labelled(&words).stating(15));
    }
    cases
}

/// Records in slot 255 alone.
fn last_slot() -> Vec<Case> {
    let records: [Record; 3] = [(255, 0, 1), (255, 1, 0), (255, 1, 2)];
    let plan = LabelledPlan::of_records("slot 255 alone", (3, 255), &records);
    let on = |entry: u16| table(0, &[(255, entry)]);
    vec![
        plan.taken_in(3, on(0)).stating(0),
        plan.taken_in(2, on(0)).stating(15),
        plan.taken_in(65535, on(65532)).stating(0),
        plan.taken_in(65535, on(65533))
            .labelled(", on 65533")
            .stating(15),
        plan.taken_out(on(3)).labelled(", of 3").stating(0),
        plan.taken_out(on(2)).labelled(", of 2").stating(16),
    ]
}

/// 8,192 records in one slot, the first or the last: seven such plans fit a band, and eight fit none.
fn full() -> Vec<Case> {
    let first = first_records(8192);
    let last: Vec<Record> = first.iter().map(|(_, a, b)| (255, *a, *b)).collect();
    let first = LabelledPlan::of_records("8192 records in slot 1", (256, 1), &first);
    let last = LabelledPlan::of_records("8192 records in slot 255", (256, 255), &last);
    let mut cases = Vec::new();
    for (plan, slot, entry, channels, number) in [
        (&first, 1, 0, 8192, 0),
        (&first, 1, 0, 8191, 15),
        (&first, 1, 57343, 65535, 0),
        (&first, 1, 57344, 65535, 15),
        (&first, 1, 65535, 8191, 15),
        (&last, 255, 57343, 65535, 0),
        (&last, 255, 57344, 65535, 15),
    ] {
        let case = plan.taken_in(channels, table(0, &[(slot, entry)]));
        let words = format!(", {entry} in it");
        cases.push(case.labelled(&words).stating(number));
    }
    for (plan, slot, entry, number) in [
        (&first, 1, 8192, 0),
        (&first, 1, 8191, 16),
        (&last, 255, 65535, 0),
        (&last, 255, 0, 16),
    ] {
        let case = plan.taken_out(table(1, &[(slot, entry)]));
        let words = format!(", {entry} in it");
        cases.push(case.labelled(&words).stating(number));
    }
    cases
}

/// 8,192 records over many slots.
fn spread() -> Vec<Case> {
    let plan = LabelledPlan::of_records("8192 records, star", (256, 255), &star());
    vec![
        plan.taken_in(65535, table(57343, &[])).stating(0),
        plan.taken_in(0, table(0, &[])).stating(15),
        plan.taken_out(table(8192, &[])).stating(0),
    ]
}
