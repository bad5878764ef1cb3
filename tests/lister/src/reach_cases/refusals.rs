//! The refusals of reach, alone and two in one call, and tables of every length near the named one.

use super::ladders::sent_ladder;
use super::{Case, Operation};
use crate::cases::{first_records, plan_bytes, Record, PLAN_A};

pub fn cases() -> Vec<Case> {
    [
        limits(),
        plans(),
        stations(),
        lengths(),
        plan_before_call(),
        two_in_the_plan(),
        two_in_the_call(),
        before_too_many(),
    ]
    .concat()
}

/// The cases with a cause from 1 to 5 and none of the call.
pub fn plan_faults() -> Vec<Case> {
    let mut cases = limits();
    cases.extend(plans());
    cases.extend(two_in_the_plan());
    cases.extend(before_too_many());
    cases.retain(|case| case.stated <= Some(5));
    cases
}

/// Plan A's named lengths.
const NAMED: [usize; 4] = [25, 25, 5, 5];

/// Plan A with n and T as given, on tables that are longer than plan A's.
fn sized(label: &str, sizes: (u16, u16)) -> Case {
    Case::on_records(label, sizes, &PLAN_A, 0).lent([30, 29, 7, 6])
}

/// Cause 1.
fn limits() -> Vec<Case> {
    let sizes = [
        (0, 4),
        (257, 4),
        (65535, 4),
        (5, 0),
        (5, 256),
        (5, 65535),
        (0, 0),
        (65535, 65535),
    ];
    let case = |(n, slots): (u16, u16)| {
        let label = format!("1 for n {n}, T {slots}");
        sized(&label, (n, slots)).stating(1)
    };
    sizes.into_iter().map(case).collect()
}

/// Records at n 5, T 4 that have cause 3, 4 or 5 in their last record.
fn with_cause(cause: u8) -> Vec<Record> {
    match cause {
        3 => vec![(1, 0, 1), (5, 0, 1)],
        4 => vec![(1, 0, 1), (2, 1, 5)],
        _ => vec![(1, 0, 1), (1, 0, 1)],
    }
}

/// Bytes at n 5, T 4 that have cause 2, 3, 4 or 5.
pub fn bytes_with_cause(cause: u8) -> Vec<u8> {
    match cause {
        2 => plan_bytes(&PLAN_A)[..71].to_vec(),
        _ => plan_bytes(&with_cause(cause)),
    }
}

/// Causes 2 to 5.
fn plans() -> Vec<Case> {
    let whole = plan_bytes(&PLAN_A);
    let with_behind = [whole.as_slice(), &[0]].concat();
    let most = plan_bytes(&first_records(8193));
    let on = |label: &str, bytes: Vec<u8>, stated: u8| {
        let case = Case::on_bytes(label, (5, 4), bytes, 0);
        case.longer([1, 2, 3, 4]).stating(stated)
    };
    let with = |label: &str, records: &[Record], stated: u8| {
        let bytes = plan_bytes(records);
        on(label, bytes, stated)
    };
    vec![
        on("2 for 71 bytes", whole[..71].to_vec(), 2),
        on("2 for 73 bytes", with_behind, 2),
        on("2 for 1 byte", whole[..1].to_vec(), 2),
        Case::on_bytes("2 for 8193 records", (256, 255), most, 0).stating(2),
        with("3 for slot 0", &[(0, 0, 1)], 3),
        with("3 for slot 5", &[(1, 0, 1), (5, 0, 1)], 3),
        with("3 for slot 65535", &[(65535, 0, 1)], 3),
        with("4 for a = b", &[(1, 0, 1), (2, 1, 1)], 4),
        with("4 for b = n", &[(1, 0, 5)], 4),
        with("4 for a = n", &[(1, 5, 0)], 4),
        with("4 for a and b = n", &[(1, 5, 5)], 4),
        with("4 for a 65535", &[(1, 0, 1), (2, 65535, 0)], 4),
        with("5 for a repeated record", &[(1, 0, 1), (1, 0, 1)], 5),
        with("5 for a falling slot", &[(2, 0, 1), (1, 0, 1)], 5),
        with("5 for a falling a", &[(1, 1, 2), (1, 0, 4)], 5),
        with("5 for falling directions", &[(1, 1, 0), (1, 0, 1)], 5),
        with("5 for a falling b", &[(1, 0, 2), (1, 0, 1)], 5),
    ]
}

/// Cause 6, and the last station.
fn stations() -> Vec<Case> {
    let case = |source: u16| {
        let label = format!("source {source} of 5");
        let case = Case::on_records(&label, (5, 4), &PLAN_A, source);
        case.longer([2, 1, 1, 2])
            .stating(if source < 5 { 0 } else { 6 })
    };
    [4, 5, 6, 255, 256, 65535].map(case).to_vec()
}

/// Cause 8: each table one entry too short, exactly long enough, and longer.
fn lengths() -> Vec<Case> {
    let on = |label: &str, lengths: [usize; 4], stated: u8| {
        let case = Case::on_records(label, (5, 4), &PLAN_A, 0);
        case.lent(lengths).stating(stated)
    };
    let mut cases = Vec::new();
    let names = ["hops", "counts", "stations' hops", "stations' counts"];
    for (table, name) in names.into_iter().enumerate() {
        let mut lengths = NAMED;
        lengths[table] = NAMED[table] - 1;
        cases.push(on(&format!("8 for one entry less of {name}"), lengths, 8));
        lengths[table] = 0;
        cases.push(on(&format!("8 for no entry of {name}"), lengths, 8));
        let mut lengths = NAMED.map(|named| named + 5);
        lengths[table] = NAMED[table] - 1;
        let label = format!("8 for one entry less of {name}, others longer");
        cases.push(on(&label, lengths, 8));
        let mut lengths = NAMED;
        lengths[table] = NAMED[table] + 1;
        let label = format!("one entry more of {name}");
        cases.push(on(&label, lengths, 0).marked(500 + table as u16));
        lengths[table] = NAMED[table] + 40;
        let label = format!("40 entries more of {name}");
        cases.push(on(&label, lengths, 0).marked(600 + table as u16));
    }
    cases.push(on("tables exactly long enough", NAMED, 0));
    cases.push(on("tables exactly long enough, mark 0", NAMED, 0).marked(0));
    let longer = NAMED.map(|named| named + 10);
    cases.push(on("all tables longer", longer, 0));
    cases.push(on("all tables longer, mark 0", longer, 0).marked(0));
    cases.push(on("all tables longer, mark 65535", longer, 0).marked(65535));
    cases.push(on("8 for empty tables", [0; 4], 8));
    cases.push(on("8 for tables of T entries", [4; 4], 8));
    cases.push(on("8 for n(T+1) and n exchanged", [5, 5, 25, 25], 8));
    cases.push(on("8 for n T entries", [20, 20, 5, 5], 8));
    cases
}

/// Causes 1 to 5 each with 6 and with 8.
fn plan_before_call() -> Vec<Case> {
    let mut cases = Vec::new();
    for sizes in [(0, 4), (257, 4), (5, 0), (5, 256)] {
        let (n, slots) = sizes;
        let mut station = sized(&format!("1 before 6, n {n}, T {slots}"), sizes);
        station.operation = Operation::Reach(65535);
        cases.push(station.stating(1));
        let short = sized(&format!("1 before 8, n {n}, T {slots}"), sizes);
        cases.push(short.lent([0, 1, 2, 0]).stating(1));
        let mut length = sized(&format!("1 before 2, n {n}, T {slots}"), sizes);
        length.bytes.pop();
        cases.push(length.stating(1));
        let mut record = sized(&format!("1 before 3, n {n}, T {slots}"), sizes);
        record.bytes = plan_bytes(&with_cause(3));
        cases.push(record.stating(1));
    }
    for cause in [2, 3, 4, 5] {
        let bytes = bytes_with_cause(cause);
        let on = |label: String, source: u16| {
            let case = Case::on_bytes(&label, (5, 4), bytes.clone(), source);
            case.stating(cause)
        };
        cases.push(on(format!("{cause} before 6"), 5));
        cases.push(on(format!("{cause} before 8"), 0).lent([25, 25, 5, 4]));
        cases.push(on(format!("{cause} before 6 and 8"), 65535).lent([0; 4]));
    }
    cases
}

/// Two of the causes 2 to 5.
fn two_in_the_plan() -> Vec<Case> {
    let cut = |cause: u8| {
        let mut bytes = plan_bytes(&with_cause(cause));
        bytes.pop();
        let label = format!("2 before {cause}");
        Case::on_bytes(&label, (5, 4), bytes, 0).stating(2)
    };
    let on = |label: &str, records: &[Record], stated: u8| {
        Case::on_records(label, (5, 4), records, 0).stating(stated)
    };
    let mut cases = [3, 4, 5].map(cut).to_vec();
    cases.extend([
        on("3 before 4 of one record", &[(0, 1, 1)], 3),
        on("3 before 5 of one record", &[(1, 0, 1), (0, 0, 1)], 3),
        on("4 before 5 of one record", &[(1, 1, 2), (1, 1, 1)], 4),
        on("4 of a record before 3", &[(1, 1, 1), (0, 0, 1)], 4),
        on(
            "5 of a record before 3",
            &[(1, 0, 1), (1, 0, 1), (5, 0, 1)],
            5,
        ),
        on(
            "5 of a record before 4",
            &[(1, 0, 1), (1, 0, 1), (2, 1, 1)],
            5,
        ),
    ]);
    cases
}

/// Cause 6 with 8.
fn two_in_the_call() -> Vec<Case> {
    let on = |label: &str, lengths: [usize; 4]| {
        let case = Case::on_records(label, (5, 4), &PLAN_A, 5);
        case.lent(lengths).stating(6)
    };
    vec![
        on("6 before 8 of hops", [24, 25, 5, 5]),
        on("6 before 8 of counts", [25, 24, 5, 5]),
        on("6 before 8 of stations' hops", [25, 25, 4, 5]),
        on("6 before 8 of stations' counts", [25, 25, 5, 4]),
        on("6 before 8 of all", [0; 4]),
    ]
}

/// The causes 1 to 8 with 9: a ladder of 65 layers.
fn before_too_many() -> Vec<Case> {
    let whole = || sent_ladder(65, 2).case("").stating(9);
    let named = |label: &str, case: Case| Case {
        label: label.to_string(),
        ..case
    };
    let mut limits = whole().stating(1);
    limits.slots = 256;
    let mut length = whole().stating(2);
    length.bytes.pop();
    let mut slot = whole().stating(3);
    slot.slots -= 1;
    let mut ends = whole().stating(4);
    ends.stations -= 1;
    let mut order = whole().stating(5);
    let last = order.bytes[order.bytes.len() - 6..].to_vec();
    order.bytes.extend(last);
    let mut station = whole().stating(6);
    station.operation = Operation::Reach(station.stations);
    let mut cases = vec![
        named("1 before 9", limits),
        named("2 before 9", length),
        named("3 before 9", slot),
        named("4 before 9", ends),
        named("5 before 9", order),
        named("6 before 9", station),
    ];
    for table in 0..4 {
        let mut case = whole().stating(8);
        case.lengths[table] -= 1;
        cases.push(named(&format!("8 before 9, table {table} short"), case));
    }
    cases
}
