//! Cause 1: n and T as the records give them, at their limits.

use super::lengths::spread_records;
use super::{on_table, Input};
use crate::cases::Record;

pub fn inputs() -> Vec<Input> {
    [
        station_limits(),
        slot_limits(),
        both_limits(),
        places(),
        most_records(),
    ]
    .concat()
}

/// One record with a station number around the limits, and with a plain low byte.
fn station_limits() -> Vec<Input> {
    let mut inputs = Vec::new();
    for (station, stated) in [
        (2, 0),
        (30, 0),
        (31, 0),
        (32, 1),
        (33, 1),
        (255, 1),
        (256, 1),
        (257, 1),
        (32767, 1),
        (32768, 1),
        (65534, 1),
        (65535, 1),
    ] {
        let label = format!("contact 0 {station} in slot 1");
        inputs.push(Input::on_records(&label, &[(1, 0, station)], stated));
        let label = format!("contact {station} 0 in slot 1");
        inputs.push(Input::on_records(&label, &[(1, station, 0)], stated));
        // A station with itself is cause 4, where n has no cause.
        let stated = if stated == 0 { 4 } else { stated };
        let label = format!("contact {station} {station} in slot 1");
        inputs.push(Input::on_records(&label, &[(1, station, station)], stated));
    }
    inputs.push(Input::on_records("contact 0 0, n 1", &[(1, 0, 0)], 4));
    inputs
}

/// One record with a slot around the limits, and with a plain low byte.
fn slot_limits() -> Vec<Input> {
    let slots = [
        (0, 1),
        (1, 0),
        (62, 0),
        (63, 0),
        (64, 1),
        (65, 1),
        (255, 1),
        (256, 1),
        (257, 1),
        (319, 1),
        (32769, 1),
        (65535, 1),
    ];
    let input = |(slot, stated): &(u16, u8)| {
        let label = format!("contact 0 1 in slot {slot}");
        Input::on_records(&label, &[(*slot, 0, 1)], *stated)
    };
    slots.iter().map(input).collect()
}

/// n and T at their limits together.
fn both_limits() -> Vec<Input> {
    let mut inputs = Vec::new();
    for (slot, b, stated) in [(63, 31, 0), (63, 32, 1), (64, 31, 1), (64, 32, 1)] {
        let label = format!("n {}, T {slot}, last record", b + 1);
        let records = [(1, 0, 1), (slot, 30, b)];
        inputs.push(Input::on_records(&label, &records, stated));
    }
    inputs
}

/// The largest station number in the first, a middle and the last record.
fn places() -> Vec<Input> {
    on_table(&[
        ("n 32 in record 0", &[(1, 0, 31), (2, 0, 1), (3, 1, 2)], 0),
        ("n 32 in record 1", &[(1, 0, 1), (2, 1, 31), (3, 1, 2)], 0),
        ("n 32 in record 2", &[(1, 0, 1), (2, 1, 2), (3, 2, 31)], 0),
        ("n 33 in record 0", &[(1, 0, 32), (2, 0, 1), (3, 1, 2)], 1),
        ("n 33 in record 1", &[(1, 0, 1), (2, 1, 32), (3, 1, 2)], 1),
        ("n 33 in record 2", &[(1, 0, 1), (2, 1, 2), (3, 2, 32)], 1),
        ("n 32 by a", &[(1, 0, 1), (2, 31, 2), (3, 2, 1)], 0),
        ("n 33 by a", &[(1, 0, 1), (2, 32, 2), (3, 2, 1)], 1),
        ("n 65536 in record 0", &[(1, 0, 65535), (2, 0, 1)], 1),
        ("n 65536 in record 1", &[(1, 0, 1), (2, 0, 65535)], 1),
        ("n 65536 by a", &[(1, 65535, 0), (2, 0, 1)], 1),
        (
            "n 65536 in every record",
            &[(1, 0, 65535), (2, 0, 65535)],
            1,
        ),
        (
            "slot 64 before the last record",
            &[(64, 0, 1), (63, 0, 1)],
            3,
        ),
        ("slot 64 in the last record", &[(63, 0, 1), (64, 0, 1)], 1),
        (
            "T 63 after slots 1 and 2",
            &[(1, 0, 1), (2, 1, 2), (63, 2, 3)],
            0,
        ),
    ])
}

/// 1,024 records at the limits, and one change in them.
fn most_records() -> Vec<Input> {
    let whole = spread_records(1024);
    let changed = |at: usize, record: Record| {
        let mut records = whole.clone();
        records[at] = record;
        records
    };
    let equal = changed(1023, whole[1022]);
    let longer = spread_records(1025);
    vec![
        Input::on_records("1024 records, n 32, T 63", &whole, 0),
        Input::on_records("1025 records, n 32, T 63", &longer, 2),
        Input::on_records("1024 records, last b 32", &changed(1023, (63, 31, 32)), 1),
        Input::on_records("1024 records, last a 32", &changed(1023, (63, 32, 31)), 1),
        Input::on_records("1024 records, last slot 64", &changed(1023, (64, 0, 1)), 1),
        Input::on_records("1024 records, last slot 0", &changed(1023, (0, 30, 31)), 1),
        Input::on_records("1024 records, last slot 62", &changed(1023, (62, 0, 1)), 3),
        Input::on_records("1024 records, last a = b", &changed(1023, (63, 31, 31)), 4),
        Input::on_records("1024 records, last two equal", &equal, 5),
        Input::on_records("1024 records, first b 32", &changed(0, (1, 0, 32)), 1),
        Input::on_records("1024 records, first slot 0", &changed(0, (0, 0, 1)), 3),
        Input::on_records("1024 records, first a = b", &changed(0, (1, 0, 0)), 4),
        Input::on_records("1024 records, first two equal", &changed(0, whole[1]), 5),
    ]
}
