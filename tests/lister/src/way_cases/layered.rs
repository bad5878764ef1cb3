//! Generated plans of layers, whose pairs have many ways of several hops.

use std::collections::BTreeSet;

use super::small::{listing, mixed};
use super::Case;
use crate::cases::{doubled, Record};
use crate::random::Random;

/// The seed of the plans and their mixed traces; each label names it.
pub const SEED: u64 = 4;
/// The number of plans.
const PLANS: usize = 60;

/// For each plan a whole listing and a mixed trace, from the first layer to the last.
pub fn cases() -> Vec<Case> {
    let mut random = Random::new(SEED);
    let mut cases = Vec::new();
    for index in 0..PLANS {
        let directions = match index % 3 {
            0 => Directions::Both,
            1 => Directions::Rising,
            _ => Directions::Falling,
        };
        let label = format!("layers {index}, seed {SEED}");
        let case = layered(&mut random, &label, directions);
        let named = |name: &str| Case {
            label: format!("{}, {name}", case.label),
            ..case.clone()
        };
        cases.push(listing(named("all ways"), index));
        cases.push(mixed(&mut random, named("mixed"), 20));
    }
    cases
}

/// Which directions the contacts between two layers have, and whether station numbers rise.
#[derive(Clone, Copy, Debug)]
enum Directions {
    /// Stations of neighbouring layers meet.
    Both,
    /// Stations send to the next layer.
    Rising,
    /// Stations send to the next layer, and have smaller numbers there.
    Falling,
}

/// Layers of up to three stations behind the source. Each two stations of neighbouring layers have contacts
/// in up to three slots, early ones for early layers. The pair is the source and a station of the last layer.
fn layered(random: &mut Random, label: &str, directions: Directions) -> Case {
    let layers = random.between(2, 4);
    let slots = random.between(layers + 1, 8);
    let mut records: BTreeSet<Record> = BTreeSet::new();
    let mut stations = 1;
    let mut last = 0..1;
    for layer in 1..=layers {
        let next = stations..stations + random.between(1, 3);
        stations = next.end;
        for (a, b) in last.flat_map(|a| next.clone().map(move |b| (a, b))) {
            for _ in 0..random.between(1, 3) {
                let slot = random.between(layer, slots - layers + layer);
                records.insert((slot as u16, a as u16, b as u16));
            }
        }
        last = next;
    }
    let records: Vec<Record> = records.into_iter().collect();
    let (sizes, last) = ((stations as u16, slots as u16), stations as u16 - 1);
    match directions {
        Directions::Both => Case::on_records(label, sizes, &doubled(&records), (0, last)),
        Directions::Rising => Case::on_records(label, sizes, &records, (0, last)),
        Directions::Falling => {
            let turned = |(slot, a, b): &Record| (*slot, last - a, last - b);
            let mut records: Vec<Record> = records.iter().map(turned).collect();
            records.sort_unstable();
            Case::on_records(label, sizes, &records, (last, 0))
        }
    }
}
