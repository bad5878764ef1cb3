//! Two or more causes in one call: which number comes first.

use super::{plan_bytes, Case, Record};

pub fn cases() -> Vec<Case> {
    [sizes_first(), length_second(), one_record(), two_records()].concat()
}

/// Records at n 5, T 4 that have cause 3, 4 or 5.
fn with_cause(cause: u8) -> Vec<Record> {
    match cause {
        3 => vec![(1, 0, 1), (5, 0, 1)],
        4 => vec![(1, 0, 1), (2, 1, 1)],
        _ => vec![(1, 0, 1), (1, 0, 1)],
    }
}

/// Cause 1 with each of 2 to 5.
fn sizes_first() -> Vec<Case> {
    let mut cases = Vec::new();
    for sizes in [(0, 4), (257, 4), (5, 0), (5, 256)] {
        let (n, slots) = sizes;
        let label = |other: u8| format!("1 before {other}, n {n}, T {slots}");
        cases.push(Case::on_bytes(&label(2), sizes, vec![0, 1, 0, 0, 0], 1));
        for cause in [3, 4, 5] {
            cases.push(Case::on_records(
                &label(cause),
                sizes,
                &with_cause(cause),
                1,
            ));
        }
    }
    let slot_too = [(256, 0, 1)];
    cases.push(Case::on_records(
        "1 before 3, T 256, slot 256",
        (5, 256),
        &slot_too,
        1,
    ));
    for (label, station_too) in [
        ("1 before 4, n 257, b 257", [(1, 0, 257)]),
        ("1 before 4, n 257, a 257", [(1, 257, 0)]),
    ] {
        cases.push(Case::on_records(label, (257, 4), &station_too, 1));
    }
    cases
}

/// Cause 2 with each of 3 to 5: the length is looked at before any record.
fn length_second() -> Vec<Case> {
    let mut cases = Vec::new();
    for cause in [3, 4, 5] {
        for more in [1, 5] {
            let mut bytes = plan_bytes(&with_cause(cause));
            bytes.extend(vec![0; more]);
            let label = format!("2 before {cause}, {more} bytes behind");
            cases.push(Case::on_bytes(&label, (5, 4), bytes, 2));
        }
    }
    let bytes = plan_bytes(&[(0, 1, 1)])[..5].to_vec();
    cases.push(Case::on_bytes(
        "2 before 3 and 4, 5 bytes",
        (5, 4),
        bytes,
        2,
    ));
    cases
}

/// Causes 3, 4 and 5 of one record.
fn one_record() -> Vec<Case> {
    let lists: [(&str, &[Record], u8); 22] = [
        ("3 before 4, slot 0, a = b", &[(0, 1, 1)], 3),
        ("3 before 4, slot 0, all 0", &[(0, 0, 0)], 3),
        ("3 before 4, slot above T, a = b", &[(5, 3, 3)], 3),
        ("3 before 4, slot above T, b = n", &[(5, 0, 5)], 3),
        ("3 before 4, slot above T, a = n", &[(5, 5, 0)], 3),
        ("3, slot above T, a above b", &[(5, 3, 2)], 3),
        ("3 before 4, all 65535", &[(65535, 65535, 65535)], 3),
        ("3 before 5, slot 0", &[(1, 0, 1), (0, 0, 1)], 3),
        (
            "3 before 5, slot 0, a and b above",
            &[(1, 0, 1), (0, 2, 3)],
            3,
        ),
        ("3 before 4 and 5", &[(1, 0, 1), (0, 0, 0)], 3),
        ("3 before 4 and 5, b = n", &[(2, 0, 1), (0, 0, 5)], 3),
        ("4 before 5, a = b, below by b", &[(1, 1, 2), (1, 1, 1)], 4),
        ("4 before 5, a = b, below by a", &[(1, 1, 2), (1, 0, 0)], 4),
        (
            "4 before 5, a = b, below by slot",
            &[(2, 1, 2), (1, 3, 3)],
            4,
        ),
        ("5, a above b, below by b", &[(2, 1, 2), (2, 1, 0)], 5),
        (
            "4 before 5, b = n, below by slot",
            &[(2, 0, 1), (1, 0, 5)],
            4,
        ),
        ("4 before 5, b = n, below by a", &[(2, 1, 2), (2, 0, 5)], 4),
        ("4 before 5, b 65535", &[(2, 1, 2), (1, 1, 65535)], 4),
        (
            "4 before 5, a = n, below by slot",
            &[(2, 0, 1), (1, 5, 0)],
            4,
        ),
        (
            "4 before 5, a and b = n, below by slot",
            &[(2, 0, 1), (1, 5, 5)],
            4,
        ),
        (
            "4 of a record with a = n above its neighbour",
            &[(1, 0, 1), (1, 5, 0)],
            4,
        ),
        (
            "4 of a record above its neighbour",
            &[(1, 0, 1), (1, 1, 1)],
            4,
        ),
    ];
    let case = |(label, records, stated): &(&str, &[Record], u8)| {
        Case::on_records(label, (5, 4), records, *stated)
    };
    lists.iter().map(case).collect()
}

/// Causes 3, 4 and 5 of different records: the earlier record decides.
fn two_records() -> Vec<Case> {
    let lists: [(&str, &[Record], u8); 22] = [
        ("earlier 3, later 4", &[(0, 0, 1), (1, 1, 1)], 3),
        ("earlier 3, later 5", &[(5, 0, 1), (1, 0, 1), (1, 0, 1)], 3),
        ("earlier 4, later 3", &[(1, 1, 1), (0, 0, 1)], 4),
        ("earlier a above b, later 3", &[(1, 1, 0), (0, 0, 1)], 3),
        ("earlier 4, later slot above T", &[(1, 1, 1), (5, 0, 1)], 4),
        ("earlier 4, later 5", &[(1, 2, 2), (1, 0, 1), (1, 0, 1)], 4),
        ("earlier b = n, later 3", &[(1, 0, 5), (0, 0, 1)], 4),
        ("earlier a = n, later 3", &[(1, 5, 0), (0, 0, 1)], 4),
        ("earlier 5, later 3", &[(1, 0, 1), (1, 0, 1), (0, 0, 1)], 5),
        (
            "earlier 5, later slot above T",
            &[(1, 0, 1), (1, 0, 1), (5, 0, 1)],
            5,
        ),
        ("earlier 5, later 4", &[(1, 0, 1), (1, 0, 1), (2, 1, 1)], 5),
        (
            "earlier 5, later b = n",
            &[(2, 0, 1), (1, 0, 1), (2, 0, 5)],
            5,
        ),
        (
            "earlier 5, later 3 and 4",
            &[(2, 0, 1), (1, 0, 1), (0, 0, 0)],
            5,
        ),
        (
            "earlier 3 and 4, later 5",
            &[(0, 0, 0), (1, 0, 1), (1, 0, 1)],
            3,
        ),
        (
            "earlier 4 and 5, later 3",
            &[(1, 0, 1), (1, 0, 0), (0, 0, 1)],
            4,
        ),
        (
            "3 between good records",
            &[(1, 0, 1), (0, 0, 1), (2, 0, 1)],
            3,
        ),
        (
            "4 between good records",
            &[(1, 0, 1), (1, 1, 1), (2, 0, 1)],
            4,
        ),
        (
            "5 between good records",
            &[(1, 0, 1), (1, 0, 1), (2, 0, 1)],
            5,
        ),
        ("3, then one below it", &[(5, 0, 1), (1, 0, 1)], 3),
        ("4, then one below it", &[(2, 1, 1), (1, 0, 1)], 4),
        (
            "3, then 4, then 5",
            &[(0, 0, 1), (1, 1, 1), (1, 0, 1), (1, 0, 1)],
            3,
        ),
        (
            "5, then 4, then 3",
            &[(1, 0, 1), (1, 0, 1), (1, 1, 1), (0, 0, 1)],
            5,
        ),
    ];
    let case = |(label, records, stated): &(&str, &[Record], u8)| {
        Case::on_records(label, (5, 4), records, *stated)
    };
    lists.iter().map(case).collect()
}
