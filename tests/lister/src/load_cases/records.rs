//! Causes 3, 4 and 5 of one record: the first, a middle one and the last.

use super::{on_table, Input};
use crate::cases::{Record, PLAN_A};

pub fn inputs() -> Vec<Input> {
    [slots(), stations(), orders(), small_slots(), small_orders()].concat()
}

/// The index of the last record of plan A.
const LAST: usize = PLAN_A.len() - 1;

/// Plan A with one record changed.
fn changed(at: usize, change: impl Fn(Record) -> Record) -> [Record; 12] {
    let mut records = PLAN_A;
    records[at] = change(records[at]);
    records
}

/// Every record of plan A with another slot. The last record gives T, which leaves 1 for it where the
/// slot is outside T's limits, and 3 for an earlier record where T becomes less than its slot.
fn slots() -> Vec<Input> {
    let mut inputs = Vec::new();
    for at in 0..PLAN_A.len() {
        for slot in [0, 5, 63, 64, 256, 260, 65535] {
            let records = changed(at, |(_, a, b)| (slot, a, b));
            let stated = match (at, slot) {
                (LAST, 5 | 63) => 0,
                (LAST, _) => 1,
                _ => 3,
            };
            let label = format!("plan A, record {at} in slot {slot}");
            inputs.push(Input::on_records(&label, &records, stated));
        }
    }
    for slot in [1, 2, 3] {
        let records = changed(LAST, |(_, a, b)| (slot, a, b));
        let label = format!("plan A, record {LAST} in slot {slot}");
        inputs.push(Input::on_records(&label, &records, 3));
    }
    inputs
}

/// Every record of plan A with a = b, and with a and b exchanged, which another record has.
fn stations() -> Vec<Input> {
    let mut inputs = Vec::new();
    for at in 0..PLAN_A.len() {
        let label = |what: &str| format!("plan A, record {at}, {what}");
        let exchanged = changed(at, |(slot, a, b)| (slot, b, a));
        inputs.push(Input::on_records(&label("exchanged"), &exchanged, 5));
        let same = changed(at, |(slot, a, _)| (slot, a, a));
        inputs.push(Input::on_records(&label("b as a"), &same, 4));
        let same = changed(at, |(slot, _, b)| (slot, b, b));
        inputs.push(Input::on_records(&label("a as b"), &same, 4));
    }
    inputs
}

/// Every record of plan A twice, and exchanged with the next.
fn orders() -> Vec<Input> {
    let mut inputs = Vec::new();
    for (at, record) in PLAN_A.into_iter().enumerate() {
        let mut records = PLAN_A.to_vec();
        records.insert(at, record);
        let label = format!("plan A, record {at} twice");
        inputs.push(Input::on_records(&label, &records, 5));
    }
    for at in 0..LAST {
        let mut records = PLAN_A;
        records.swap(at, at + 1);
        let label = format!("plan A, records {at} and {} exchanged", at + 1);
        inputs.push(Input::on_records(&label, &records, 5));
    }
    inputs
}

/// Slots of two and three records, with T from the last.
fn small_slots() -> Vec<Input> {
    on_table(&[
        ("slots 2, 1", &[(2, 0, 1), (1, 0, 1)], 3),
        ("slots 2, 1, stations rising", &[(2, 0, 1), (1, 1, 2)], 3),
        ("slots 1, 2, 1", &[(1, 0, 1), (2, 0, 1), (1, 1, 2)], 3),
        ("slots 1, 0", &[(1, 0, 1), (0, 0, 1)], 1),
        ("slots 0, 1", &[(0, 0, 1), (1, 0, 1)], 3),
        ("slots 1, 0, 1", &[(1, 0, 1), (0, 1, 2), (1, 1, 2)], 3),
        ("slots 63, 62", &[(63, 0, 1), (62, 0, 1)], 3),
        ("slots 65535, 1", &[(65535, 0, 1), (1, 0, 1)], 3),
        ("slots 256, 1", &[(256, 0, 1), (1, 0, 1)], 3),
        ("slots 257, 1", &[(257, 0, 1), (1, 1, 2)], 3),
    ])
}

/// Orders of a few records whose slots are all within T.
fn small_orders() -> Vec<Input> {
    on_table(&[
        (
            "slots 1, 2, 1, 2",
            &[(1, 0, 1), (2, 0, 1), (1, 0, 1), (2, 0, 1)],
            5,
        ),
        ("slots 2, 1, 2", &[(2, 0, 1), (1, 0, 1), (2, 1, 2)], 5),
        ("not above by a", &[(1, 1, 2), (1, 0, 3)], 5),
        ("not above by b", &[(1, 0, 2), (1, 0, 1)], 5),
        ("the other direction, falling", &[(1, 1, 0), (1, 0, 1)], 5),
        ("the other direction, rising", &[(1, 0, 1), (1, 1, 0)], 0),
        ("a above b, above by b", &[(1, 3, 0), (1, 3, 2)], 0),
        ("a above b, not above by b", &[(1, 3, 2), (1, 3, 0)], 5),
        (
            "equal records 0 and 2",
            &[(1, 0, 1), (1, 0, 2), (1, 0, 1)],
            5,
        ),
        ("above by b alone", &[(1, 0, 1), (1, 0, 2)], 0),
        ("above by a, b less", &[(1, 0, 3), (1, 1, 2)], 0),
        ("above by slot, a and b less", &[(1, 2, 3), (2, 0, 1)], 0),
    ])
}
