//! Causes 3, 4 and 5, each alone, on both sides of each limit.

use super::{doubled, Case, Record, PLAN_A};
use crate::one_way::{OneWayPlan, ONE_WAY_PLANS};

pub fn cases() -> Vec<Case> {
    [
        slots_small(),
        slots_large(),
        stations_small(),
        stations_large(),
        orders(),
        orders_wide(),
        places(),
        one_way(),
    ]
    .concat()
}

/// Slots of a single record at n 5, T 4.
fn slots_small() -> Vec<Case> {
    let slots = [
        (0, 3),
        (1, 0),
        (4, 0),
        (5, 3),
        (255, 3),
        (256, 3),
        (257, 3),
        (260, 3),
        (1024, 3),
        (32769, 3),
        (65280, 3),
        (65535, 3),
    ];
    let case = |(slot, stated): &(u16, u8)| {
        let label = format!("T 4, slot {slot}");
        Case::on_records(&label, (5, 4), &[(*slot, 0, 1)], *stated)
    };
    slots.iter().map(case).collect()
}

/// Slots of a single record at n 256, T 255 and at T 1.
fn slots_large() -> Vec<Case> {
    let slots = [
        (0, 3),
        (1, 0),
        (254, 0),
        (255, 0),
        (256, 3),
        (257, 3),
        (511, 3),
        (65280, 3),
        (65281, 3),
        (65535, 3),
    ];
    let case = |(slot, stated): &(u16, u8)| {
        let label = format!("T 255, slot {slot}");
        Case::on_records(&label, (256, 255), &[(*slot, 0, 1)], *stated)
    };
    let mut cases: Vec<Case> = slots.iter().map(case).collect();
    cases.push(Case::on_records("T 1, slot 1", (2, 1), &[(1, 0, 1)], 0));
    cases.push(Case::on_records("T 1, slot 2", (2, 1), &[(2, 0, 1)], 3));
    cases.push(Case::on_records("T 1, slot 256", (2, 1), &[(256, 0, 1)], 3));
    cases
}

/// Cases of one record in slot 1, named by its stations.
fn stations(n: u16, slots: u16, contacts: &[(u16, u16, u8)]) -> Vec<Case> {
    let case = |(a, b, stated): &(u16, u16, u8)| {
        let label = format!("n {n}, a {a}, b {b}");
        Case::on_records(&label, (n, slots), &[(1, *a, *b)], *stated)
    };
    contacts.iter().map(case).collect()
}

/// Stations at n 5: equal, exchanged, and around n.
fn stations_small() -> Vec<Case> {
    let contacts = [
        (0, 0, 4),
        (0, 1, 0),
        (1, 0, 0),
        (1, 1, 4),
        (0, 4, 0),
        (3, 4, 0),
        (4, 0, 0),
        (4, 3, 0),
        (4, 4, 4),
        (0, 5, 4),
        (4, 5, 4),
        (5, 0, 4),
        (5, 4, 4),
        (5, 5, 4),
        (5, 6, 4),
        (6, 5, 4),
        (0, 6, 4),
        (6, 0, 4),
        (0, 256, 4),
        (256, 0, 4),
        (0, 257, 4),
        (257, 0, 4),
        (0, 260, 4),
        (260, 0, 4),
        (256, 1, 4),
        (256, 257, 4),
        (0, 1024, 4),
        (1024, 0, 4),
        (0, 65535, 4),
        (65535, 0, 4),
        (65534, 65535, 4),
        (65535, 65535, 4),
    ];
    stations(5, 4, &contacts)
}

/// Stations at n 256: values whose two bytes are exchanged, or whose low byte is plain.
fn stations_large() -> Vec<Case> {
    let contacts = [
        (0, 255, 0),
        (254, 255, 0),
        (255, 0, 0),
        (255, 254, 0),
        (255, 255, 4),
        (0, 256, 4),
        (1, 256, 4),
        (255, 256, 4),
        (256, 0, 4),
        (256, 1, 4),
        (256, 255, 4),
        (256, 256, 4),
        (256, 257, 4),
        (256, 512, 4),
        (0, 257, 4),
        (257, 0, 4),
        (0, 511, 4),
        (511, 0, 4),
        (255, 65280, 4),
        (65280, 255, 4),
        (65280, 65281, 4),
        (1, 32770, 4),
        (32769, 2, 4),
        (0, 65535, 4),
        (65535, 0, 4),
        (65535, 255, 4),
    ];
    stations(256, 255, &contacts)
}

/// Two records at n 5, T 4: above, equal, and below, by each field.
fn orders() -> Vec<Case> {
    let pairs: [(&str, Record, Record, u8); 23] = [
        ("above by slot only", (1, 0, 1), (2, 0, 1), 0),
        ("above by a only", (1, 0, 4), (1, 1, 4), 0),
        ("above by b only", (1, 0, 1), (1, 0, 2), 0),
        ("above by slot, a and b below", (1, 2, 3), (2, 0, 1), 0),
        ("above by slot, b below", (1, 0, 4), (2, 0, 1), 0),
        ("above by slot, a below", (1, 3, 4), (2, 0, 4), 0),
        ("above by a, b below", (1, 0, 4), (1, 1, 2), 0),
        ("equal record", (1, 0, 1), (1, 0, 1), 5),
        ("below by slot only", (2, 0, 1), (1, 0, 1), 5),
        ("below by a only", (1, 1, 4), (1, 0, 4), 5),
        ("below by b only", (1, 0, 2), (1, 0, 1), 5),
        ("below by slot, a and b above", (2, 0, 1), (1, 2, 3), 5),
        ("below by slot, b above", (2, 0, 1), (1, 0, 4), 5),
        ("below by slot, a above", (2, 0, 4), (1, 3, 4), 5),
        ("below by a, b above", (1, 1, 2), (1, 0, 4), 5),
        ("the other direction, a 0 to 1", (1, 0, 1), (1, 1, 0), 0),
        ("the other direction, a 4 to 2", (1, 4, 2), (1, 2, 4), 5),
        ("a above b, above by a", (1, 2, 1), (1, 3, 0), 0),
        ("a above b, above by b", (1, 4, 0), (1, 4, 3), 0),
        ("a above b, equal record", (1, 4, 3), (1, 4, 3), 5),
        ("a above b, below by b", (1, 4, 3), (1, 4, 0), 5),
        ("a above b, below by a", (1, 4, 0), (1, 3, 2), 5),
        ("a above b, b above a of another", (1, 1, 4), (1, 3, 0), 0),
    ];
    let case = |(label, one, other, stated): &(&str, Record, Record, u8)| {
        Case::on_records(label, (5, 4), &[*one, *other], *stated)
    };
    let mut cases: Vec<Case> = pairs.iter().map(case).collect();
    let same_as_first = [(1, 0, 1), (1, 0, 2), (1, 0, 1)];
    cases.push(Case::on_records(
        "equal to the one before last",
        (5, 4),
        &same_as_first,
        5,
    ));
    let below_first = [(2, 0, 1), (3, 0, 1), (2, 0, 2)];
    cases.push(Case::on_records(
        "above the first, below the second",
        (5, 4),
        &below_first,
        5,
    ));
    let contacts_back = [(1, 0, 1), (2, 0, 1), (3, 0, 1), (4, 0, 1)];
    cases.push(Case::on_records(
        "one contact in every slot",
        (5, 4),
        &contacts_back,
        0,
    ));
    cases
}

/// Two records at n 256, T 255: a key of too few bits orders them otherwise.
fn orders_wide() -> Vec<Case> {
    let pairs: [(&str, Record, Record, u8); 16] = [
        ("wide, above by a, b 255 to 2", (1, 0, 255), (1, 1, 2), 0),
        ("wide, above by slot, b 2 to 1", (1, 0, 2), (2, 0, 1), 0),
        (
            "wide, above by slot, all else falls",
            (1, 254, 255),
            (2, 0, 1),
            0,
        ),
        ("wide, slot 127 to 128", (127, 254, 255), (128, 0, 1), 0),
        ("wide, a 127 to 128", (1, 127, 255), (1, 128, 129), 0),
        ("wide, b 127 to 128", (1, 0, 127), (1, 0, 128), 0),
        ("wide, slot 254 to 255", (254, 254, 255), (255, 0, 1), 0),
        ("wide, slot 128 to 127", (128, 0, 1), (127, 254, 255), 5),
        ("wide, a 128 to 127", (1, 128, 129), (1, 127, 255), 5),
        ("wide, b 128 to 127", (1, 0, 128), (1, 0, 127), 5),
        ("wide, slot 255 to 254", (255, 0, 1), (254, 254, 255), 5),
        (
            "wide, largest record twice",
            (255, 255, 254),
            (255, 255, 254),
            5,
        ),
        (
            "wide, the other direction, falling",
            (1, 255, 0),
            (1, 0, 255),
            5,
        ),
        (
            "wide, the other direction, rising",
            (1, 0, 255),
            (1, 255, 0),
            0,
        ),
        ("wide, a 254 to 255", (9, 254, 255), (9, 255, 0), 0),
        ("wide, a 255 to 254", (9, 255, 0), (9, 254, 255), 5),
    ];
    let case = |(label, one, other, stated): &(&str, Record, Record, u8)| {
        Case::on_records(label, (256, 255), &[*one, *other], *stated)
    };
    pairs.iter().map(case).collect()
}

/// Plan A with one record changed, at every position; P8 too.
fn places() -> Vec<Case> {
    let changed = |position: usize, record: Record| {
        let mut records = PLAN_A.to_vec();
        records[position] = record;
        records
    };
    let mut cases = Vec::new();
    for (position, (slot, a, b)) in PLAN_A.into_iter().enumerate() {
        let mut push = |fault: &str, record: Record, stated: u8| {
            let label = format!("plan A, position {position}, {fault}");
            let records = changed(position, record);
            cases.push(Case::on_records(&label, (5, 4), &records, stated));
        };
        push("slot 0", (0, a, b), 3);
        push("slot 5", (5, a, b), 3);
        push("a = b", (slot, a, a), 4);
        push("a and b exchanged", (slot, b, a), 5);
        push("b = n", (slot, a, 5), 4);
        push("a = n", (slot, 5, b), 4);
    }
    for position in 1..PLAN_A.len() {
        let label = format!("plan A, position {position} equals the one before");
        let records = changed(position, PLAN_A[position - 1]);
        cases.push(Case::on_records(&label, (5, 4), &records, 5));
        let label = format!(
            "plan A, positions {} and {position} exchanged",
            position - 1
        );
        let mut records = PLAN_A.to_vec();
        records.swap(position - 1, position);
        cases.push(Case::on_records(&label, (5, 4), &records, 5));
    }
    let mut repeated = PLAN_A.to_vec();
    repeated.insert(0, PLAN_A[0]);
    cases.push(Case::on_records(
        "P8 a repeated record",
        (5, 4),
        &repeated,
        5,
    ));
    let mut with_itself = PLAN_A.to_vec();
    with_itself.insert(0, (1, 0, 0));
    cases.push(Case::on_records(
        "P8 a station with itself",
        (5, 4),
        &with_itself,
        4,
    ));
    let two = doubled(&[(1, 0, 1), (1, 1, 2)]);
    cases.push(Case::on_records(
        "P10 two contacts in slot 1",
        (3, 1),
        &two,
        0,
    ));
    cases.push(Case::on_records("plan A", (5, 4), &PLAN_A, 0));
    cases
}

/// Plans with one direction alone; the records of one of them exchanged.
fn one_way() -> Vec<Case> {
    let case = |plan: &OneWayPlan| Case::on_records(plan.label, plan.sizes, plan.records, 0);
    let mut cases: Vec<Case> = ONE_WAY_PLANS.iter().map(case).collect();
    let plan_a = [
        (1, 0, 1),
        (1, 0, 2),
        (2, 1, 3),
        (2, 2, 3),
        (3, 2, 3),
        (4, 3, 4),
    ];
    // A record with the larger sender may stand alone or last in its slot.
    for (position, stated) in [5, 0, 5, 0, 0, 0].into_iter().enumerate() {
        let mut records = plan_a;
        let (slot, a, b) = records[position];
        records[position] = (slot, b, a);
        let label = format!("plan A with one direction, {position} exchanged");
        cases.push(Case::on_records(&label, (5, 4), &records, stated));
    }
    cases
}
