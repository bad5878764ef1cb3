//! Generated inputs: valid plans of three sizes, and damaged ones.

use super::Input;
use crate::cases::{self, damage, plan_bytes, valid_records};
use crate::load_program::{MOST_CONTACTS, MOST_SLOTS, MOST_STATIONS};
use crate::random::Random;

/// The seed of the generated inputs; each label names it.
const SEED: u64 = 4;
/// The number of damaged plans.
const DAMAGED: usize = 50;

/// A size of plans: their number, the largest n, T and number of records.
pub struct Size {
    pub name: &'static str,
    plans: usize,
    stations: usize,
    slots: usize,
    records: usize,
}

pub const SIZES: [Size; 3] = [
    Size {
        name: "small",
        plans: 50,
        stations: 6,
        slots: 5,
        records: 20,
    },
    Size {
        name: "middle",
        plans: 50,
        stations: 14,
        slots: 16,
        records: 100,
    },
    Size {
        name: "large",
        plans: 35,
        stations: MOST_STATIONS,
        slots: MOST_SLOTS,
        records: MOST_CONTACTS,
    },
];

pub fn inputs() -> Vec<Input> {
    let mut random = Random::new(SEED);
    let mut inputs = Vec::new();
    for size in &SIZES {
        for index in 0..size.plans {
            inputs.push(Input {
                label: format!("{} {index}, seed {SEED}", size.name),
                bytes: valid_plan(&mut random, size),
                stated: Some(0),
            });
        }
    }
    inputs.extend((0..DAMAGED).map(|index| damaged(&mut random, index)));
    inputs
}

/// The damaged plans alone.
pub fn damaged_inputs() -> Vec<Input> {
    let mut inputs = inputs();
    inputs.split_off(inputs.len() - DAMAGED)
}

/// A valid plan of a size.
pub fn valid_plan(random: &mut Random, size: &Size) -> Vec<u8> {
    let stations = random.between(2, size.stations);
    let slots = random.between(1, size.slots);
    let wanted = random.between(1, size.records);
    plan_bytes(&valid_records(random, stations, slots, wanted))
}

/// A small plan or a plan of middle size, damaged in one or two places.
fn damaged(random: &mut Random, index: usize) -> Input {
    let mut case = cases::Case {
        label: String::new(),
        stations: 0,
        slots: 5,
        bytes: valid_plan(random, &SIZES[index % 2]),
        stated: None,
    };
    let mut done = Vec::new();
    for _ in 0..random.between(1, 2) {
        done.push(damage_bytes(random, &mut case));
    }
    Input {
        label: format!("damaged {index}, seed {SEED}: {}", done.join(", ")),
        bytes: case.bytes,
        stated: None,
    }
}

/// Damages the bytes of a case; damages of n and T are passed over, since the bytes give both here.
fn damage_bytes(random: &mut Random, case: &mut cases::Case) -> &'static str {
    let before = case.bytes.clone();
    let mut done = damage(random, case);
    while case.bytes == before {
        done = damage(random, case);
    }
    done
}
