//! Generated plans with g 1, 2, 3 and 16. In every other small one only stations of neighbouring numbers meet, so that
//! most pairs have more than one hop.

use super::Case;
use crate::cases::{plan_bytes, valid_records};
use crate::load_cases::{valid_plan, Input, SIZES};
use crate::plan::{Contact, RECORD_BYTES};
use crate::random::Random;

/// The seed of the generated plans; each label names it.
const SEED: u64 = 26;
/// The number of small plans with each turnaround.
const SMALL: usize = 16;
/// The number of plans of middle size with each turnaround but 16: they have up to 16 slots.
const MIDDLE: usize = 4;

/// Turnarounds, and the least and the largest T of small plans with them.
const TURNAROUNDS: [(u16, usize, usize); 4] = [(1, 3, 6), (2, 4, 9), (3, 6, 12), (16, 20, 40)];

pub fn cases() -> Vec<Case> {
    let mut random = Random::new(SEED);
    let mut cases = Vec::new();
    for (turnaround, least, most) in TURNAROUNDS {
        for index in 0..SMALL {
            let (stations, slots) = (random.between(3, 6), random.between(least, most));
            let wanted = random.between(10, 30) * (1 + index % 2);
            let records = valid_records(&mut random, stations, slots, wanted);
            let mut bytes = plan_bytes(&records);
            if index % 2 == 1 {
                bytes = with_neighbours_alone(&bytes);
            }
            let input = input("small", index, bytes);
            let numbered = (0..stations).map(|station| (station, (index + station) % 9));
            let case = |(station, number)| drawn(&input, turnaround, station, number);
            cases.extend(numbered.map(case));
        }
        let middle = if turnaround == 16 { 0 } else { MIDDLE };
        for index in 0..middle {
            let input = input("middle", index, valid_plan(&mut random, &SIZES[1]));
            for station in [random.below(4), 4 + random.below(4)] {
                cases.push(drawn(&input, turnaround, station, random.below(9)));
            }
        }
    }
    cases
}

/// The records of a plan between stations of neighbouring numbers.
pub fn with_neighbours_alone(bytes: &[u8]) -> Vec<u8> {
    let is_kept = |record: &&[u8]| {
        let contact = Contact::from_record(record);
        contact.sender.abs_diff(contact.hearer) == 1
    };
    let records = bytes.chunks_exact(RECORD_BYTES).filter(is_kept);
    records.flatten().copied().collect()
}

/// A case whose number is left open: the station may not be below n.
fn drawn(input: &Input, turnaround: u16, station: usize, number: usize) -> Case {
    let case = Case::asking(input, turnaround, station as u16, number as u16);
    Case {
        stated: None,
        ..case
    }
}

fn input(size: &str, index: usize, bytes: Vec<u8>) -> Input {
    Input::on_bytes(&format!("{size} {index}, seed {SEED}"), bytes, 0)
}
