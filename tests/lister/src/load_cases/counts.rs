//! Counts around 2^63 and 2^64 within the program's limits, with g = 1: cause 9, and plans just below it.

use super::Input;
use crate::load_program::MOST_CONTACTS;
use crate::means::COUNT_LIMIT;
use crate::plans::Owned;
use crate::reach_cases::Builder;

/// Layers behind station 0: the stations of each, and the first and the last slot in which all of them
/// hear all of the layer before.
type Layers = [(usize, usize, usize); 23];

/// 512 contacts with over 2^63 shortest paths between the first and the last station.
const LARGE: Layers = [
    (2, 1, 7),
    (1, 2, 11),
    (2, 3, 13),
    (1, 5, 16),
    (2, 7, 19),
    (1, 9, 22),
    (2, 12, 25),
    (1, 14, 28),
    (1, 15, 33),
    (1, 18, 35),
    (1, 21, 39),
    (1, 24, 41),
    (1, 26, 44),
    (1, 29, 46),
    (1, 32, 48),
    (2, 36, 50),
    (1, 39, 52),
    (2, 42, 54),
    (1, 45, 57),
    (2, 47, 59),
    (1, 50, 61),
    (2, 54, 62),
    (1, 57, 63),
];

/// 627 contacts with over 2^64 shortest paths between the first and the last station.
const TOO_MANY: Layers = [
    (2, 1, 9),
    (1, 2, 12),
    (2, 3, 16),
    (1, 4, 19),
    (2, 6, 21),
    (1, 8, 24),
    (2, 10, 27),
    (1, 12, 30),
    (1, 14, 34),
    (1, 16, 37),
    (1, 19, 40),
    (1, 22, 42),
    (1, 24, 45),
    (1, 27, 48),
    (1, 30, 50),
    (2, 34, 52),
    (1, 37, 54),
    (2, 40, 56),
    (1, 43, 58),
    (2, 46, 60),
    (1, 49, 61),
    (2, 52, 62),
    (1, 55, 63),
];

/// The place among the layers of one whose first slot has a single contact. Without it the paths are
/// below 2^64.
const CUT: usize = 9;

/// The contacts of layers, by slot, sender and hearer.
fn contacts(layers: &Layers) -> Vec<[usize; 3]> {
    let mut contacts = Vec::new();
    let mut last = 0..1;
    for (width, first_slot, last_slot) in layers {
        let next = last.end..last.end + width;
        for slot in *first_slot..=*last_slot {
            for sender in last.clone() {
                contacts.extend(next.clone().map(|hearer| [slot, sender, hearer]));
            }
        }
        last = next;
    }
    contacts
}

/// A plan of 32 stations with these contacts in their direction, and so many of them in the other one
/// too. Asserts the number of shortest paths from the first station to the last with g = 1.
fn plan(contacts: &[[usize; 3]], back: usize, count: u128) -> Vec<u8> {
    let mut builder = Builder::turning(1);
    builder.grow(32, 63);
    for [slot, sender, hearer] in contacts {
        builder.send(*slot, *sender, *hearer);
    }
    for [slot, sender, hearer] in &contacts[..back] {
        builder.send(*slot, *hearer, *sender);
    }
    assert_eq!(builder.contacts(), contacts.len() + back);
    assert_eq!(builder.entries().station(31).count, count);
    Owned::built(&builder).bytes
}

pub fn inputs() -> Vec<Input> {
    let large = contacts(&LARGE);
    let count = 12_475_551_396_000_872_704;
    assert!((1 << 63..1 << 64).contains(&count) && large.len() == 512);
    let mut inputs = vec![
        Input::on_bytes("counts above 2^63", plan(&large, 512, count), 0),
        Input::on_bytes("counts above 2^63, one way", plan(&large, 0, count), 0),
    ];
    let mut below = TOO_MANY;
    below[CUT].1 += 1;
    for (name, layers, count, stated) in [
        ("over", TOO_MANY, 18_469_572_343_870_156_288, 9),
        ("below", below, 18_433_598_756_381_306_368, 0),
    ] {
        let one_way = contacts(&layers);
        assert_eq!(one_way.len(), if stated == 9 { 627 } else { 626 });
        assert_eq!(count > u128::from(COUNT_LIMIT), stated == 9);
        for back in [0, MOST_CONTACTS - one_way.len()] {
            let records = one_way.len() + back;
            let label = format!("counts {name} 2^64, {records} records");
            let bytes = plan(&one_way, back, count);
            inputs.push(Input::on_bytes(&label, bytes, stated));
        }
    }
    inputs
}
