//! Generated cases: half of them valid plans, half damaged in one or two places.

use std::collections::BTreeSet;

use super::{plan_bytes, Case, Record};
use crate::random::Random;

/// The seed of the generated cases; each label names it.
pub const SEED: u64 = 1;
/// The number of generated cases.
const CASES: usize = 360;

pub fn generated_cases() -> Vec<Case> {
    let mut random = Random::new(SEED);
    let case = |index: usize| {
        let mut case = valid_case(&mut random, index % 4 < 2);
        let mut done = vec!["valid"];
        if index % 2 == 1 {
            let damages = random.between(1, 2);
            done = (0..damages)
                .map(|_| damage(&mut random, &mut case))
                .collect();
        }
        case.label = format!("generated {index}, seed {SEED}: {}", done.join(", "));
        case
    };
    (0..CASES).map(case).collect()
}

/// A valid plan of few stations and slots, or of any numbers of them.
fn valid_case(random: &mut Random, small: bool) -> Case {
    let (most_stations, most_slots) = if small { (6, 5) } else { (256, 255) };
    let stations = random.between(1, most_stations);
    let slots = random.between(1, most_slots);
    let wanted = if stations == 1 {
        0
    } else {
        random.between(0, 16)
    };
    let records = valid_records(random, stations, slots, wanted);
    Case {
        label: String::new(),
        stations: stations as u16,
        slots: slots as u16,
        bytes: plan_bytes(&records),
        stated: None,
    }
}

/// Records of a valid plan, each once and in order; `wanted` of them are drawn. In a third of the plans
/// no record comes with its other direction but by chance, in a third some do, in a third all.
pub fn valid_records(
    random: &mut Random,
    stations: usize,
    slots: usize,
    wanted: usize,
) -> Vec<Record> {
    let directions = random.below(3);
    let mut records: BTreeSet<Record> = BTreeSet::new();
    let mut left = wanted;
    while left > 0 {
        let slot = random.between(1, slots) as u16;
        let sender = random.below(stations);
        let hearer = (sender + random.between(1, stations - 1)) % stations;
        let (sender, hearer) = (sender as u16, hearer as u16);
        records.insert((slot, sender, hearer));
        left -= 1;
        if left > 0 && random.below(2) < directions {
            records.insert((slot, hearer, sender));
            left -= 1;
        }
    }
    records.into_iter().collect()
}

/// Damages a case in one place, and names the damage; the plan may still be valid.
pub fn damage(random: &mut Random, case: &mut Case) -> &'static str {
    let records = case.bytes.len() / 6;
    if records == 0 {
        case.bytes.extend(vec![0; random.between(1, 6)]);
        return "grow";
    }
    match random.below(10) {
        0 => {
            let (one, other) = (random.below(records), random.below(records));
            for byte in 0..6 {
                case.bytes.swap(6 * one + byte, 6 * other + byte);
            }
            "swap"
        }
        1 => {
            let at = 6 * random.below(records);
            let record = case.bytes[at..at + 6].to_vec();
            case.bytes.splice(at..at, record);
            "repeat"
        }
        2 => {
            let at = random.below(case.bytes.len());
            case.bytes[at] = random.below(256) as u8;
            "byte"
        }
        3 => {
            let at = 6 * random.below(records) + 2 * random.below(3) + 1;
            let byte = case.bytes[at];
            case.bytes[at] = if random.below(2) == 0 {
                byte.wrapping_add(1)
            } else {
                byte.wrapping_sub(1)
            };
            "field by one"
        }
        4 => {
            let at = 6 * random.below(records);
            let slot = [0, case.slots.saturating_add(1)][random.below(2)];
            case.bytes[at..at + 2].copy_from_slice(&slot.to_be_bytes());
            "slot"
        }
        5 => {
            let cut = random.between(1, 5);
            case.bytes.truncate(case.bytes.len() - cut);
            "cut"
        }
        6 => {
            let at = 6 * random.below(records);
            for byte in at + 2..at + 4 {
                case.bytes.swap(byte, byte + 2);
            }
            "exchange"
        }
        7 => {
            let at = 6 * random.below(records);
            case.bytes.copy_within(at + 2..at + 4, at + 4);
            "equal"
        }
        8 => {
            case.stations = other_size(random, case.stations);
            "n"
        }
        _ => {
            case.slots = other_size(random, case.slots);
            "T"
        }
    }
}

/// Another n or T: 0, one less, one more, or any below 512.
fn other_size(random: &mut Random, size: u16) -> u16 {
    match random.below(4) {
        0 => 0,
        1 => size.saturating_sub(1),
        2 => size.saturating_add(1),
        _ => random.below(512) as u16,
    }
}
