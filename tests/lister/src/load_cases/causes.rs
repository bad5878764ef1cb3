//! Two or more causes in one input: which number comes first.

use super::lengths::spread_records;
use super::{on_table, Input};
use crate::cases::{plan_bytes, Record};

pub fn inputs() -> Vec<Input> {
    [
        length_first(),
        too_many_first(),
        sizes_second(),
        one_record(),
        two_records(),
    ]
    .concat()
}

/// Records with one of causes 1, 3, 4, 5 each, and the number.
pub const FAULTS: [(&str, &[Record], u8); 9] = [
    ("n 33", &[(1, 0, 1), (1, 0, 32)], 1),
    ("n 65536", &[(1, 0, 65535), (2, 0, 1)], 1),
    ("n 33 by a", &[(1, 0, 1), (1, 32, 0)], 1),
    ("T 64", &[(1, 0, 1), (64, 0, 1)], 1),
    ("T 0", &[(1, 0, 1), (0, 0, 1)], 1),
    ("slot 0", &[(0, 0, 1), (1, 0, 1)], 3),
    ("slot above T", &[(2, 0, 1), (1, 0, 1)], 3),
    ("a = b", &[(1, 0, 1), (1, 1, 1)], 4),
    ("equal records", &[(1, 0, 1), (1, 0, 1)], 5),
];

/// A wrong length with each other fault, its records whole or its last one cut.
fn length_first() -> Vec<Input> {
    let mut inputs = Vec::new();
    for (fault, records, _) in FAULTS {
        let whole = plan_bytes(records);
        for more in [1, 5] {
            let bytes = [whole.as_slice(), &vec![0; more]].concat();
            let label = format!("2 before {fault}, {more} bytes behind");
            inputs.push(Input::on_bytes(&label, bytes, 2));
        }
        let bytes = whole[..whole.len() - 1].to_vec();
        let label = format!("2 before {fault}, a byte cut off");
        inputs.push(Input::on_bytes(&label, bytes, 2));
    }
    inputs
}

/// 1,025 records with each other fault, at their beginning and at their end in turn.
fn too_many_first() -> Vec<Input> {
    let mut inputs = Vec::new();
    for (index, (fault, records, _)) in FAULTS.into_iter().enumerate() {
        let spread = spread_records(1025 - records.len());
        let (place, all) = match index % 2 {
            0 => ("", [records, &spread].concat()),
            _ => (" at the end", [&spread, records].concat()),
        };
        let label = format!("2 before {fault}{place}, 1025 records");
        inputs.push(Input::on_records(&label, &all, 2));
    }
    inputs
}

/// n or T outside its limits with a fault of a record, before it and after it.
fn sizes_second() -> Vec<Input> {
    on_table(&[
        ("n 33 after slot 0", &[(0, 0, 1), (1, 0, 32)], 1),
        ("n 33 after slot above T", &[(3, 0, 1), (1, 0, 32)], 1),
        ("n 33 after a = b", &[(1, 1, 1), (1, 1, 32)], 1),
        (
            "n 33 after equal records",
            &[(1, 0, 1), (1, 0, 1), (1, 0, 32)],
            1,
        ),
        ("n 33 before slot 0", &[(1, 0, 32), (0, 0, 1), (2, 0, 1)], 1),
        ("n 33 before a = b", &[(1, 0, 32), (2, 1, 1)], 1),
        (
            "n 33 before equal records",
            &[(1, 0, 32), (2, 0, 1), (2, 0, 1)],
            1,
        ),
        ("n 33 in a record of slot 0", &[(0, 0, 32), (1, 0, 1)], 1),
        ("n 33 by a = b", &[(1, 32, 32), (2, 0, 1)], 1),
        (
            "n 33 by a, after equal records",
            &[(1, 0, 1), (1, 0, 1), (1, 32, 0)],
            1,
        ),
        ("T 0 after slot above T", &[(1, 0, 1), (0, 0, 1)], 1),
        ("T 0 after a = b", &[(1, 1, 1), (0, 0, 1)], 1),
        ("T 0 in a record with a = b", &[(0, 1, 1)], 1),
        ("T 0 in a record of zeros", &[(0, 0, 0)], 1),
        (
            "T 0 after equal records",
            &[(1, 0, 1), (1, 0, 1), (0, 0, 1)],
            1,
        ),
        ("T 64 after slot 0", &[(0, 0, 1), (64, 0, 1)], 1),
        ("T 64 after a = b", &[(1, 1, 1), (64, 0, 1)], 1),
        (
            "T 64 after equal records",
            &[(1, 0, 1), (1, 0, 1), (64, 0, 1)],
            1,
        ),
        ("T 65535 in a record with a = b", &[(65535, 1, 1)], 1),
        ("n 65536, T 65535, a = b", &[(65535, 65535, 65535)], 1),
        ("n 33, T 0", &[(0, 0, 32)], 1),
        ("n 33, T 64", &[(64, 0, 32)], 1),
    ])
}

/// Causes 3, 4 and 5 of one record; the records behind it give n and T.
fn one_record() -> Vec<Input> {
    on_table(&[
        ("3 before 4, slot 0", &[(0, 1, 1), (1, 0, 1)], 3),
        ("3 before 4, slot above T", &[(5, 3, 3), (4, 0, 1)], 3),
        ("3 before 5, slot 0", &[(1, 0, 1), (0, 0, 1), (2, 0, 1)], 3),
        ("3 before 4 and 5", &[(1, 0, 1), (0, 0, 0), (2, 0, 1)], 3),
        ("4 before 5, a = b", &[(2, 1, 2), (1, 3, 3), (2, 1, 3)], 4),
        (
            "5 of a record with a above b",
            &[(2, 1, 2), (2, 1, 0), (2, 1, 3)],
            5,
        ),
        ("4 before 5 in the last record", &[(2, 1, 2), (2, 0, 0)], 4),
        (
            "4 of a record above its neighbour",
            &[(1, 0, 1), (1, 1, 1)],
            4,
        ),
    ])
}

/// Causes 3, 4 and 5 of different records: the earlier record decides.
fn two_records() -> Vec<Input> {
    let same: Record = (1, 0, 1);
    on_table(&[
        ("earlier 3, later 4", &[(0, 0, 1), (1, 1, 1), (1, 0, 1)], 3),
        ("earlier 3, later 5", &[(2, 0, 1), same, same], 3),
        ("earlier 4, later 3", &[(1, 1, 1), (0, 0, 1), (1, 0, 1)], 4),
        (
            "earlier a above b, later 3",
            &[(1, 1, 0), (0, 0, 1), (1, 0, 1)],
            3,
        ),
        (
            "earlier 4, later slot above T",
            &[(1, 1, 1), (5, 0, 1), (2, 0, 1)],
            4,
        ),
        ("earlier 4, later 5", &[(1, 2, 2), same, same], 4),
        ("earlier 5, later 3", &[same, same, (0, 0, 1), (2, 0, 1)], 5),
        (
            "earlier 5, later slot above T",
            &[same, same, (5, 0, 1), (2, 0, 1)],
            5,
        ),
        ("earlier 5, later 4", &[same, same, (2, 1, 1)], 5),
        ("3, then 4, then 5", &[(0, 0, 1), (1, 1, 1), same, same], 3),
        ("4, then 3, then 5", &[(1, 1, 1), (0, 0, 1), same, same], 4),
        (
            "5, then 4, then 3",
            &[same, same, (1, 1, 1), (0, 0, 1), (2, 0, 1)],
            5,
        ),
    ])
}
