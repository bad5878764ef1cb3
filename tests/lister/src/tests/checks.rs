//! Check against a second statement of it: the smallest of all faults.

use crate::answer::{number, PlanFault, Refusal};
use crate::cases::{plan_bytes, Record};
use crate::plan::{check, PlanInput, KEPT, NO_TURNAROUND};

/// All faults of the records as (record, number); the smallest one decides.
fn smallest_fault(stations: u16, slots: u16, records: &[Record]) -> u8 {
    let mut faults = Vec::new();
    for (at, (slot, a, b)) in records.iter().enumerate() {
        if !(1..=slots).contains(slot) {
            faults.push((at, 3));
        }
        if a == b || *a >= stations || *b >= stations {
            faults.push((at, 4));
        }
        if at > 0 && records[at - 1] >= records[at] {
            faults.push((at, 5));
        }
    }
    faults.iter().min().map_or(0, |(_, fault)| *fault)
}

fn check_number(stations: u16, slots: u16, records: &[Record]) -> u8 {
    number(&check(PlanInput {
        bytes: &plan_bytes(records),
        stations: usize::from(stations),
        slots: usize::from(slots),
        turnaround: NO_TURNAROUND,
        keeping: KEPT,
    }))
}

/// All records with fields below `bound`.
fn records_below(bound: u16) -> Vec<Record> {
    let mut records = Vec::new();
    for slot in 0..bound {
        for a in 0..bound {
            for b in 0..bound {
                records.push((slot, a, b));
            }
        }
    }
    records
}

#[test]
fn all_short_plans() {
    let records = records_below(4);
    let mut seen = [0; 6];
    for one in &records {
        for other in &records {
            let list = [*one, *other];
            let expected = smallest_fault(3, 2, &list);
            assert_eq!(check_number(3, 2, &list), expected, "{list:?}");
            seen[usize::from(expected)] += 1;
        }
    }
    assert!([0, 3, 4, 5].iter().all(|fault| seen[*fault] > 0));
    let records = records_below(3);
    for one in &records {
        for other in &records {
            for third in &records {
                let list = [*one, *other, *third];
                let expected = smallest_fault(2, 1, &list);
                assert_eq!(check_number(2, 1, &list), expected, "{list:?}");
            }
        }
    }
}

#[test]
fn all_sizes_near_the_limits() {
    let values = [
        0,
        1,
        2,
        254,
        255,
        256,
        257,
        511,
        512,
        65535,
        65536,
        65537,
        1 << 32,
    ];
    for stations in values {
        for slots in values {
            let accepted = (1..=256).contains(&stations) && (1..=255).contains(&slots);
            let answer = check(PlanInput {
                bytes: &[],
                stations,
                slots,
                turnaround: NO_TURNAROUND,
                keeping: KEPT,
            });
            let expected = if accepted {
                Ok(())
            } else {
                Err(Refusal::Plan(PlanFault::Limits))
            };
            assert_eq!(answer, expected, "n {stations} T {slots}");
        }
    }
}
