//! One entry that decides: of a slot of the plan, of one without records up to T, beyond T, the last; and entries
//! behind the 255, which none looks at.

use super::{table, Case};
use crate::cases::Record;
use crate::pair_cases::LabelledPlan;

/// Slots with records: 2 in slot 1, 1 in slot 3; none in 2 and 4.
const RECORDS: [Record; 3] = [(1, 0, 1), (1, 1, 0), (3, 2, 1)];

/// Each slot looked at, and the plan's records in it.
const SLOTS: [(usize, u16); 9] = [
    (1, 2),
    (2, 0),
    (3, 1),
    (4, 0),
    (5, 0),
    (6, 0),
    (128, 0),
    (254, 0),
    (255, 0),
];

pub fn cases() -> Vec<Case> {
    let plan = LabelledPlan::of_records("three records", (3, 4), &RECORDS);
    [one_too_many(&plan), one_too_few(&plan), behind(&plan)].concat()
}

/// Taking in with one entry just at c, and one above; every other entry is below.
fn one_too_many(plan: &LabelledPlan) -> Vec<Case> {
    let mut cases = Vec::new();
    for channels in [10, 65534] {
        for (slot, records) in SLOTS {
            for (more, number) in [(0, 0), (1, 15)] {
                let entry = channels - records + more;
                let case = plan.taken_in(channels, table(3, &[(slot, entry)]));
                let words = format!(", {entry} in slot {slot}");
                cases.push(case.labelled(&words).stating(number));
            }
        }
    }
    cases
}

/// Taking out with one entry of just the records, and one less where there are any.
fn one_too_few(plan: &LabelledPlan) -> Vec<Case> {
    let mut cases = Vec::new();
    for (slot, records) in SLOTS {
        let case = plan.taken_out(table(65535, &[(slot, records)]));
        let words = format!(", {records} in slot {slot}");
        cases.push(case.labelled(&words).stating(0));
        if let Some(fewer) = records.checked_sub(1) {
            let case = plan.taken_out(table(65535, &[(slot, fewer)]));
            let words = format!(", {fewer} in slot {slot}");
            cases.push(case.labelled(&words).stating(16));
        }
    }
    cases
}

/// Entries behind the 255 above c, and 0.
fn behind(plan: &LabelledPlan) -> Vec<Case> {
    let mut cases = Vec::new();
    for mark in [0, 6, 65535] {
        let lent = |value: u16| [vec![value; 255], vec![mark; 45]].concat();
        let words = format!(", {mark} behind");
        cases.push(plan.taken_in(5, lent(3)).labelled(&words).stating(0));
        cases.push(plan.taken_out(lent(2)).labelled(&words).stating(0));
    }
    cases
}
