//! Small plans: the valid ones of check-cases, and further generated ones.

use std::collections::BTreeSet;

use super::Case;
use crate::cases::{generated_cases, valid_records};
use crate::random::Random;

/// The seed of the further plans; each label names it.
pub const SEED: u64 = 2;
/// The number of further plans.
const PLANS: usize = 240;

pub fn cases() -> Vec<Case> {
    [checked_plans(), further_plans()].concat()
}

/// The valid plans of check-cases: the small ones from every source, the large ones from two.
fn checked_plans() -> Vec<Case> {
    let mut cases = Vec::new();
    let valid = |case: &crate::cases::Case| case.number() == 0;
    for (index, case) in generated_cases()
        .iter()
        .filter(|case| valid(case))
        .enumerate()
    {
        let (n, slots) = (case.stations, case.slots);
        let sources = if n <= 6 {
            (0..n).collect()
        } else {
            outer_stations(&case.bytes)
        };
        for source in sources {
            let label = format!("{}, from {source}", case.label);
            let mut reach = Case::on_bytes(&label, (n, slots), case.bytes.clone(), source);
            reach = reach.marked(1000 + index as u16);
            if index % 3 == 1 {
                reach = reach.longer([index % 5, index % 4, index % 2, 1]);
            }
            cases.push(reach);
        }
    }
    cases
}

/// The first and the last station that a plan names; station 0 for an empty plan.
pub fn outer_stations(bytes: &[u8]) -> BTreeSet<u16> {
    let fields = |record: &[u8]| [3, 5].map(|low| u16::from(record[low]));
    let stations: BTreeSet<u16> = bytes.chunks_exact(6).flat_map(fields).collect();
    let ends = [stations.first(), stations.last()];
    ends.map(|end| end.copied().unwrap_or(0)).into()
}

/// Plans of up to 6 stations, 5 slots and 14 records; every fourth varies the lengths.
pub fn further_plans() -> Vec<Case> {
    let mut random = Random::new(SEED);
    let case = |index: usize| {
        let stations = random.between(2, 6);
        let slots = random.between(1, 5);
        let wanted = random.between(2, 14);
        let records = valid_records(&mut random, stations, slots, wanted);
        let source = random.below(stations) as u16;
        let label = format!("small {index}, seed {SEED}, from {source}");
        let sizes = (stations as u16, slots as u16);
        let case = Case::on_records(&label, sizes, &records, source);
        let case = case.marked(random.below(65536) as u16);
        if index % 4 == 3 {
            let lengths = case.lengths.map(|named| other_length(&mut random, named));
            return case.lent(lengths);
        }
        case
    };
    (0..PLANS).map(case).collect()
}

/// Another length: the named one, a little longer, or rarely one entry too short.
pub fn other_length(random: &mut Random, named: usize) -> usize {
    match random.below(8) {
        0 => named - 1,
        1 | 2 => named,
        _ => named + random.between(1, 9),
    }
}
