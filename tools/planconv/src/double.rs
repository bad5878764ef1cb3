//! A plan in the old format, in which a < b in each record and stations a and b hear each other, as a
//! plan in which a sends and b hears.

use crate::{records, Fault, Record, RecordFault};

/// What makes a record one that no plan in the old format has behind another.
fn fault_of(record: Record, before: Option<Record>) -> Option<RecordFault> {
    let [_, a, b] = record;
    if a >= b {
        Some(RecordFault::Stations)
    } else if before.is_some_and(|before| record <= before) {
        Some(RecordFault::Order)
    } else {
        None
    }
}

/// The bytes of records.
fn bytes_of(records: &[Record]) -> Vec<u8> {
    let fields = records.iter().flatten();
    fields.flat_map(|field| field.to_be_bytes()).collect()
}

/// The bytes of the plan that has two records for each contact of a plan in the old format, one for
/// each sender, in the order of (slot, a, b).
pub fn double(bytes: &[u8]) -> Result<Vec<u8>, Fault> {
    let mut doubled: Vec<Record> = Vec::new();
    let mut before = None;
    for (position, record) in records(bytes)?.enumerate() {
        if let Some(fault) = fault_of(record, before) {
            return Err(Fault::Record {
                position,
                record,
                fault,
            });
        }
        let [slot, a, b] = record;
        doubled.extend([[slot, a, b], [slot, b, a]]);
        before = Some(record);
    }
    doubled.sort_unstable();
    Ok(bytes_of(&doubled))
}

#[cfg(test)]
mod tests {
    use super::*;
    use crate::{to_bytes, to_lines};

    /// Plan A of document 01, in the old format.
    const OLD_PLAN_A: &[u8] = b"1 0 1\n1 0 2\n2 1 3\n2 2 3\n3 2 3\n4 3 4\n";
    /// Doubled plan A.
    const PLAN_A: &[u8] = include_bytes!("../../../tests/plans/a.plan");

    /// What doubling makes of lines, as lines or as the fault's message.
    fn doubled(lines: &str) -> Result<String, String> {
        let doubled = double(&to_bytes(lines.as_bytes()).unwrap());
        let lines = doubled.map(|bytes| to_lines(&bytes).unwrap());
        lines.map_err(|fault| fault.to_string())
    }

    /// All contacts of some slots and some stations, in order.
    fn all_contacts(slots: &[u16], stations: &[u16]) -> Vec<Record> {
        let mut contacts = Vec::new();
        for slot in slots {
            for (at, a) in stations.iter().enumerate() {
                contacts.extend(stations[at + 1..].iter().map(|b| [*slot, *a, *b]));
            }
        }
        contacts
    }

    /// Doubles contacts, and takes them back from the records and from the records' lines.
    fn round_trip(contacts: &[Record]) {
        let doubled = double(&bytes_of(contacts)).unwrap();
        let found: Vec<Record> = records(&doubled).unwrap().collect();
        assert!(found.is_sorted_by(|one, other| one < other));
        let turned = |[slot, a, b]: &Record| [*slot, *b, *a];
        let mut other_way: Vec<Record> = found.iter().map(turned).collect();
        other_way.sort_unstable();
        assert_eq!(other_way, found);
        let old = found.iter().filter(|[_, a, b]| a < b);
        assert_eq!(old.copied().collect::<Vec<Record>>(), contacts);
        assert_eq!(found.len(), 2 * contacts.len());
        let lines = to_lines(&doubled).unwrap();
        assert_eq!(to_bytes(lines.as_bytes()).unwrap(), doubled);
    }

    #[test]
    fn plan_a_doubled() {
        let old = to_bytes(OLD_PLAN_A).unwrap();
        assert_eq!(double(&old).unwrap(), PLAN_A);
    }

    #[test]
    fn both_senders_stand_in_the_order_of_the_slot() {
        assert_eq!(doubled("1 0 1\n").unwrap(), "1 0 1\n1 1 0\n");
        assert_eq!(
            doubled("7 0 9\n7 2 3\n8 0 1\n").unwrap(),
            "7 0 9\n7 2 3\n7 3 2\n7 9 0\n8 0 1\n8 1 0\n"
        );
        assert_eq!(doubled("").unwrap(), "");
    }

    #[test]
    fn every_small_plan_makes_the_round_trip() {
        let sizes: [(&[u16], &[u16]); 3] = [
            (&[1, 2], &[0, 1, 2]),
            (&[3], &[0, 1, 2, 3]),
            (&[0, 255, 256, 65535], &[0, 255, 65535]),
        ];
        for (slots, stations) in sizes {
            let all = all_contacts(slots, stations);
            for subset in 0_u32..1 << all.len() {
                let chosen = (0..all.len()).filter(|place| subset >> place & 1 == 1);
                round_trip(&chosen.map(|place| all[place]).collect::<Vec<Record>>());
            }
        }
    }

    #[test]
    fn a_plan_of_the_most_records_makes_the_round_trip() {
        let stations: Vec<u16> = (0..=255).collect();
        let slots: Vec<u16> = (1..=255).collect();
        let all = all_contacts(&slots, &stations);
        let spread: Vec<Record> = all.into_iter().step_by(2027).collect();
        assert!(spread.len() > 4096);
        round_trip(&spread[..4096]);
        let dense = all_contacts(&[254, 255], &stations[..91]);
        round_trip(&dense[..4096]);
    }

    #[test]
    fn stations_that_are_not_in_the_old_order() {
        let message = "no plan in the old format: position";
        for (lines, place) in [
            ("1 1 0\n", "0, record 1 1 0"),
            ("1 5 5\n", "0, record 1 5 5"),
            ("1 0 1\n1 1 0\n", "1, record 1 1 0"),
            ("1 0 1\n2 65535 256\n2 1 0\n", "1, record 2 65535 256"),
            ("3 0 1\n1 1 0\n", "1, record 1 1 0"),
        ] {
            let expected = format!("{message} {place}: a is not below b");
            assert_eq!(doubled(lines), Err(expected));
        }
    }

    #[test]
    fn records_that_do_not_ascend() {
        for (lines, place) in [
            ("1 0 1\n1 0 1\n", "1, record 1 0 1"),
            ("1 0 2\n1 0 1\n", "1, record 1 0 1"),
            ("1 1 2\n1 0 3\n", "1, record 1 0 3"),
            ("2 0 1\n1 4 5\n", "1, record 1 4 5"),
            ("1 0 1\n2 0 1\n2 0 1\n1 1 0\n", "2, record 2 0 1"),
        ] {
            let place = format!("no plan in the old format: position {place}");
            let expected = format!("{place}: it is not above the record before it");
            assert_eq!(doubled(lines), Err(expected));
        }
    }

    #[test]
    fn a_doubled_plan_is_no_plan_in_the_old_format() {
        assert_eq!(
            double(PLAN_A),
            Err(Fault::Record {
                position: 2,
                record: [1, 1, 0],
                fault: RecordFault::Stations,
            })
        );
    }

    #[test]
    fn lengths_that_end_within_a_record() {
        let old = to_bytes(OLD_PLAN_A).unwrap();
        for length in 0..=old.len() {
            let doubled = double(&old[..length]);
            let rest = length % 6;
            if rest == 0 {
                assert_eq!(doubled.unwrap().len(), 2 * length);
            } else {
                assert_eq!(doubled, Err(Fault::Rest { length, rest }));
            }
        }
    }
}
