//! Plans with too many walks to be listed: ladders, and counts of up to 20 digits.

use super::{some_stations, Case};
use crate::load_cases::{large_counts, layered};

pub fn cases() -> Vec<Case> {
    [ladders(), large()].concat()
}

/// Ladders of 15 layers of two stations, a turnaround apart: a station has half of the walks that cross its layer.
fn ladders() -> Vec<Case> {
    let mut cases = Vec::new();
    for turnaround in [1, 2, 3] {
        let input = layered(turnaround.into(), 15, 2);
        cases.extend(some_stations(&input, turnaround, &[0, 1, 30], &[1]));
        cases.extend(some_stations(&input, turnaround, &[2, 29], &[8]));
        cases.extend(some_stations(&input, turnaround, &[15], &[0]));
    }
    cases
}

/// Counts above 2^63 with g = 1, and the same plans with a larger one. The second station of a layer has its first walk
/// behind more than can be listed.
fn large() -> Vec<Case> {
    let mut cases = Vec::new();
    let inputs = large_counts().into_iter();
    let inputs: Vec<_> = inputs.filter(|input| input.stated == Some(0)).collect();
    for input in &inputs[1..3] {
        cases.extend(some_stations(input, 1, &[2], &[0, 8]));
        cases.extend(some_stations(input, 1, &[15], &[0]));
        cases.extend(some_stations(input, 1, &[30], &[1]));
        cases.extend(some_stations(input, 2, &[2], &[8]));
    }
    cases.into_iter().map(|case| case.stating(0)).collect()
}
