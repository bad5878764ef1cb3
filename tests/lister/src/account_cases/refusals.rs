//! Every number that an account is refused with, alone and before those that come behind it: 2, 1, the plan's own 3 to
//! 5, 12, 6, 9. There is no 14: g is at most 16 where it is looked at, and h is 255.

use super::{some_stations, Case};
use crate::cases::{plan_bytes, Record, PLAN_A};
use crate::load_cases::{damaged_inputs, large_counts, spread_records, Input, FAULTS};
use crate::plan::contacts;
use crate::turned::WRONG_TURNAROUNDS;

/// A turnaround and a station: both are right, one is wrong, both are.
const CALLS: [(u16, u16); 4] = [(2, 0), (2, 65535), (17, 0), (17, 65535)];

pub fn cases() -> Vec<Case> {
    [
        lengths(),
        lengths_first(),
        faults(),
        turnarounds(),
        stations(),
        too_many(),
        damaged(),
    ]
    .concat()
}

/// An input that is refused whatever g and the station are.
fn refused(input: Input) -> impl Iterator<Item = Case> {
    let case = move |(turnaround, station)| Case::asking(&input, turnaround, station, 8);
    CALLS.into_iter().map(case)
}

/// 2 of inputs whose records are right.
fn lengths() -> Vec<Case> {
    let plan_a = plan_bytes(&PLAN_A);
    let inputs = [
        ("1 byte", vec![0]),
        ("a byte behind plan A", [plan_a.as_slice(), &[0]].concat()),
        ("plan A without a byte", plan_a[1..].to_vec()),
        (
            "5 bytes behind plan A",
            [plan_a.as_slice(), &[0; 5]].concat(),
        ),
    ];
    let inputs = inputs.map(|(label, bytes)| Input::on_bytes(label, bytes, 2));
    let mut cases: Vec<Case> = inputs.into_iter().flat_map(refused).collect();
    for (records, stated) in [(1024, 0), (1025, 2)] {
        let label = format!("{records} records");
        let input = Input::on_records(&label, &spread_records(records), stated);
        cases.push(Case::asking(&input, 2, 0, 0).stating(stated));
    }
    cases
}

/// 2 before each fault of the records.
fn lengths_first() -> Vec<Case> {
    let case = |(fault, records, _): (&str, &[Record], u8)| {
        let bytes = [plan_bytes(records).as_slice(), &[0]].concat();
        let label = format!("2 before {fault}");
        Case::asking(&Input::on_bytes(&label, bytes, 2), 17, 65535, 8)
    };
    FAULTS.into_iter().map(case).collect()
}

/// 1, 3, 4 and 5 of the records, alone and before 12 and 6; and the first of two of them.
fn faults() -> Vec<Case> {
    let two: [(&str, &[Record], u8); 5] = [
        ("1 before 3", &[(0, 0, 1), (1, 0, 32)], 1),
        ("1 before 4", &[(1, 1, 1), (64, 0, 1)], 1),
        ("1 before 5", &[(1, 0, 1), (1, 0, 1), (1, 0, 32)], 1),
        ("3 before 4", &[(0, 1, 1), (1, 0, 1)], 3),
        ("4 before 5", &[(2, 1, 2), (2, 0, 0)], 4),
    ];
    let input =
        |(fault, records, number): (&str, &[Record], u8)| Input::on_records(fault, records, number);
    let inputs = FAULTS.into_iter().chain(two).map(input);
    inputs.flat_map(refused).collect()
}

/// 12 alone and before 6.
fn turnarounds() -> Vec<Case> {
    let mut cases = Vec::new();
    for (input, stations) in [
        (Input::on_records("plan A", &PLAN_A, 0), [3, 5]),
        (Input::on_records("empty input", &[], 0), [0, 1]),
    ] {
        for turnaround in WRONG_TURNAROUNDS {
            cases.extend(some_stations(&input, turnaround, &stations, &[1]));
        }
    }
    cases
}

/// 6: stations that are not below n; some are in their low byte.
fn stations() -> Vec<Case> {
    let mut cases = Vec::new();
    let none: [Record; 0] = [];
    for (label, records, stations) in [
        (
            "plan A",
            PLAN_A.as_slice(),
            [5, 6, 31, 32, 255, 256, 259, 65535],
        ),
        ("empty input", &none, [1, 2, 31, 32, 255, 256, 512, 65535]),
        (
            "n 32",
            &[(1, 0, 31)],
            [32, 33, 63, 64, 255, 256, 287, 65535],
        ),
    ] {
        let input = Input::on_records(label, records, 0);
        for turnaround in [1, 2, 16] {
            cases.extend(some_stations(&input, turnaround, &stations, &[0, 8]));
        }
    }
    cases.into_iter().map(|case| case.stating(6)).collect()
}

/// The plan with its stations in the other order; n is 32.
fn reversed(bytes: &[u8]) -> Vec<u8> {
    let record = |station: usize| 31 - station as u16;
    let records = contacts(bytes).map(|contact| {
        let slot = contact.slot as u16;
        (slot, record(contact.sender), record(contact.hearer))
    });
    let mut records: Vec<Record> = records.collect();
    records.sort_unstable();
    plan_bytes(&records)
}

/// 9 for every station, the ones without such pairs too, and 12 and 6 before it; the source with too many walks is the
/// first or the last.
fn too_many() -> Vec<Case> {
    let mut inputs = large_counts().into_iter();
    let over = inputs.find(|input| input.stated == Some(9));
    let over = over.expect("an input with too many walks");
    let last = Input::on_bytes("counts over 2^64, to 0", reversed(&over.bytes), 9);
    let calls = [
        (1, 0, 0, 9),
        (1, 1, 8, 9),
        (1, 31, 8, 9),
        (1, 32, 8, 6),
        (17, 32, 8, 12),
    ];
    let case = |input: &Input, (turnaround, station, number, stated)| {
        Case::asking(input, turnaround, station, number).stating(stated)
    };
    let mut cases: Vec<Case> = calls.into_iter().map(|call| case(&over, call)).collect();
    cases.extend(calls[..2].iter().map(|call| case(&last, *call)));
    cases
}

/// Plans damaged in one or two places, each with a station of it or the next one.
fn damaged() -> Vec<Case> {
    let inputs = damaged_inputs().into_iter().enumerate();
    let case = |(index, input): (usize, Input)| Case::asking(&input, 2, index as u16 % 5, 8);
    inputs.map(case).collect()
}
