//! Plan A, once, twice and out again; plans with one direction alone and doubled; plans without records; c at 0 and
//! at 1.

use super::{table, Case};
use crate::cases::{doubled, Record, PLAN_A};
use crate::pair_cases::LabelledPlan;

pub fn cases() -> Vec<Case> {
    [plan_a(), directions(), empty(), few_channels()].concat()
}

/// The table of plan A alone: 4 records in each of the slots 1 and 2, 2 in 3 and 4.
const PLAN_A_USE: [(usize, u16); 4] = [(1, 4), (2, 4), (3, 2), (4, 2)];

fn plan_a() -> Vec<Case> {
    let plan = LabelledPlan::of_records("plan A", (5, 4), &PLAN_A);
    let (none, once) = (table(0, &[]), table(0, &PLAN_A_USE));
    let twice = table(0, &PLAN_A_USE.map(|(slot, entry)| (slot, 2 * entry)));
    let mut cases = Vec::new();
    for (channels, number) in [(0, 15), (3, 15), (4, 0), (5, 0), (65535, 0)] {
        let case = plan.taken_in(channels, none.clone());
        cases.push(case.stating(number));
    }
    for (channels, number) in [(4, 15), (7, 15), (8, 0)] {
        let case = plan.taken_in(channels, once.clone());
        cases.push(case.labelled(", when in").stating(number));
    }
    cases.push(plan.taken_out(none).stating(16));
    cases.push(plan.taken_out(once).labelled(", when in").stating(0));
    cases.push(plan.taken_out(twice).labelled(", when in twice").stating(0));
    cases
}

/// Two records between the same stations take two channels, also in one slot.
fn directions() -> Vec<Case> {
    let one_way: [Record; 2] = [(1, 0, 1), (3, 1, 2)];
    let both = doubled(&one_way);
    let mut cases = Vec::new();
    for (name, records, number) in [("one way", &one_way[..], 0), ("doubled", &both, 15)] {
        let plan = LabelledPlan::of_records(name, (3, 3), records);
        cases.push(plan.taken_in(1, table(0, &[])).stating(number));
        cases.push(plan.taken_in(2, table(0, &[])).stating(0));
        let out = plan.taken_out(table(0, &[(1, 2), (3, 2)]));
        cases.push(out.labelled(", of two each").stating(0));
        let out = plan.taken_out(table(0, &[(1, 1), (3, 1)]));
        let number = if number == 0 { 0 } else { 16 };
        cases.push(out.labelled(", of one each").stating(number));
    }
    cases
}

/// A plan without records changes nothing; taking it in still looks at every entry.
fn empty() -> Vec<Case> {
    let mut cases = Vec::new();
    for sizes in [(1, 1), (256, 255)] {
        let label = format!("empty plan, n {}, T {}", sizes.0, sizes.1);
        let plan = LabelledPlan::of_records(&label, sizes, &[]);
        for (words, entry, channels, number) in [
            (", on zeros", 0, 0, 0),
            (", on ones", 1, 1, 0),
            (", on ones", 1, 0, 15),
            (", on 65535", 65535, 65535, 0),
            (", on 65535", 65535, 65534, 15),
        ] {
            let case = plan.taken_in(channels, table(entry, &[]));
            cases.push(case.labelled(words).stating(number));
        }
        for (words, entry) in [(", of zeros", 0), (", of 65535", 65535)] {
            let case = plan.taken_out(table(entry, &[]));
            cases.push(case.labelled(words).stating(0));
        }
    }
    cases
}

/// c at 0 and 1 with one record.
fn few_channels() -> Vec<Case> {
    let plan = LabelledPlan::of_records("one record in slot 2", (2, 3), &[(2, 0, 1)]);
    let mut cases = Vec::new();
    for (entry, channels, number) in [(0, 0, 15), (0, 1, 0), (1, 1, 15), (1, 0, 15), (1, 2, 0)] {
        let case = plan.taken_in(channels, table(0, &[(2, entry)]));
        let words = format!(", on {entry}");
        cases.push(case.labelled(&words).stating(number));
    }
    cases
}
