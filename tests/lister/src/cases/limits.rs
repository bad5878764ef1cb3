//! Causes 1 and 2 at their limits.

use super::{doubled, plan_bytes, Case, Record, PLAN_A};

pub fn cases() -> Vec<Case> {
    [
        station_limits(),
        slot_limits(),
        short_lengths(),
        long_lengths(),
        corners(),
    ]
    .concat()
}

/// n at its limits and with a plain low byte, the plan being empty.
fn station_limits() -> Vec<Case> {
    let numbers = [
        (0, 1),
        (1, 0),
        (2, 0),
        (255, 0),
        (256, 0),
        (257, 1),
        (258, 1),
        (512, 1),
        (32768, 1),
        (65280, 1),
        (65535, 1),
    ];
    let case = |(n, stated): &(u16, u8)| {
        Case::on_records(&format!("n {n}, T 1, empty plan"), (*n, 1), &[], *stated)
    };
    numbers.iter().map(case).collect()
}

/// T at its limits and with a plain low byte, the plan being empty.
fn slot_limits() -> Vec<Case> {
    let numbers = [
        (0, 1),
        (2, 0),
        (254, 0),
        (255, 0),
        (256, 1),
        (257, 1),
        (511, 1),
        (32768, 1),
        (65280, 1),
        (65535, 1),
    ];
    let case = |(slots, stated): &(u16, u8)| {
        let label = format!("n 1, T {slots}, empty plan");
        Case::on_records(&label, (1, *slots), &[], *stated)
    };
    numbers.iter().map(case).collect()
}

/// Plan A, and its bytes cut off or with bytes behind them.
fn short_lengths() -> Vec<Case> {
    let whole = plan_bytes(&PLAN_A);
    let mut cases = Vec::new();
    for (length, stated) in [
        (1, 2),
        (2, 2),
        (3, 2),
        (4, 2),
        (5, 2),
        (6, 0),
        (7, 2),
        (11, 2),
        (12, 0),
        (13, 2),
        (36, 0),
        (71, 2),
        (72, 0),
    ] {
        let label = format!("plan A, its first {length} bytes");
        let bytes = whole[..length].to_vec();
        cases.push(Case::on_bytes(&label, (5, 4), bytes, stated));
    }
    for more in 1..6 {
        let label = format!("plan A and {more} bytes of 0");
        let mut bytes = whole.clone();
        bytes.extend(vec![0; more]);
        cases.push(Case::on_bytes(&label, (5, 4), bytes, 2));
    }
    cases
}

/// 8,192 records at n 256, T 255: in every slot 16 stations send to one each and hear it, and in slot 1
/// to one more.
fn spread_records() -> Vec<Record> {
    let mut meetings = Vec::new();
    for slot in 1..=255 {
        for a in 0..16 {
            if slot == 1 {
                meetings.push((slot, a, 239 + a));
            }
            meetings.push((slot, a, 240 + a));
        }
    }
    doubled(&meetings)
}

/// The numbers of records and bytes around 8,192 records.
fn long_lengths() -> Vec<Case> {
    let sizes = (256, 255);
    let spread = spread_records();
    let mut longer = spread.clone();
    longer.push((255, 255, 254));
    let cut = |length: usize| plan_bytes(&longer)[..length].to_vec();
    let with_last = |record: Record| {
        let mut records = spread.clone();
        records[8191] = record;
        records
    };
    let before_last = spread[8190];
    vec![
        Case::on_records("8192 records, 32 in a slot", sizes, &spread, 0),
        Case::on_records("8193 records", sizes, &longer, 2),
        Case::on_bytes("49151 bytes", sizes, cut(49151), 2),
        Case::on_bytes("49153 bytes", sizes, cut(49153), 2),
        Case::on_records("8193 records and n 257", (257, 255), &longer, 1),
        Case::on_records(
            "8192 records, last two equal",
            sizes,
            &with_last(before_last),
            5,
        ),
        Case::on_records(
            "8192 records, last a = n",
            sizes,
            &with_last((255, 256, 15)),
            4,
        ),
    ]
}

/// The smallest and the largest sizes, with and without records.
fn corners() -> Vec<Case> {
    vec![
        Case::on_records("n 0, T 0, empty plan", (0, 0), &[], 1),
        Case::on_records("n 256, T 255, empty plan", (256, 255), &[], 0),
        Case::on_records("n 257, T 255, empty plan", (257, 255), &[], 1),
        Case::on_records("n 256, T 256, empty plan", (256, 256), &[], 1),
        Case::on_records("n 65535, T 65535, empty plan", (65535, 65535), &[], 1),
        Case::on_records(
            "n 256, T 255, last record",
            (256, 255),
            &[(255, 255, 254)],
            0,
        ),
        Case::on_records(
            "n 2, T 1, the two records",
            (2, 1),
            &[(1, 0, 1), (1, 1, 0)],
            0,
        ),
        Case::on_records("n 1, contact 0 1", (1, 1), &[(1, 0, 1)], 4),
        Case::on_records("n 1, contact 1 0", (1, 1), &[(1, 1, 0)], 4),
        Case::on_records("n 1, contact 0 0", (1, 1), &[(1, 0, 0)], 4),
        Case::on_records("plan A with n 256, T 255", (256, 255), &PLAN_A, 0),
        Case::on_records("plan A with n 4", (4, 4), &PLAN_A, 4),
        Case::on_records("plan A with n 6", (6, 4), &PLAN_A, 0),
        Case::on_records("plan A with T 3", (5, 3), &PLAN_A, 3),
        Case::on_records("plan A with T 5", (5, 5), &PLAN_A, 0),
        Case::on_records("plan A with n 0", (0, 4), &PLAN_A, 1),
        Case::on_records("plan A with n 257", (257, 4), &PLAN_A, 1),
        Case::on_records("plan A with T 0", (5, 0), &PLAN_A, 1),
        Case::on_records("plan A with T 256", (5, 256), &PLAN_A, 1),
        Case::on_records("plan A with n and T exchanged", (4, 5), &PLAN_A, 4),
    ]
}
