//! Records with each of their bits changed, and bytes drawn near records.

use super::Case;
use crate::drawing::{Figures, DRAWN_BYTES};
use crate::drawing_samples::drawn_bytes;
use crate::random::Random;

pub fn cases() -> Vec<Case> {
    let mut cases = flipped();
    cases.extend(drawn());
    cases
}

/// Every bit of three records changed: an idle one, one of plan A, and a large one.
fn flipped() -> Vec<Case> {
    let records = [(0, 0, 0), (1, 2_863_311_530, 2), (255, 1 << 48, 64770)];
    let mut cases = Vec::new();
    for (station, load, pairs) in records {
        let figures = Figures {
            station,
            load,
            pairs,
        };
        for bit in 0..8 * DRAWN_BYTES {
            let mut record = figures.record();
            record[bit / 8] ^= 128 >> (bit % 8);
            let label = format!("{station} {load} {pairs} but for bit {bit}");
            cases.push(Case::new(&label, &record));
        }
    }
    cases
}

/// The seed of the bytes; each label names it.
const SEED: u64 = 31;
/// How many of them there are.
const DRAWN: usize = 600;

/// Bytes near records.
fn drawn() -> Vec<Case> {
    let mut random = Random::new(SEED);
    let case = |index| {
        Case::new(
            &format!("drawn {index}, seed {SEED}"),
            &drawn_bytes(&mut random),
        )
    };
    (0..DRAWN).map(case).collect()
}
