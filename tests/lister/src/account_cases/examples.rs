//! Document 01's examples, the smallest plans, plans with one direction alone, and plans by hand with a turnaround.

use super::{every_station, Case};
use crate::cases::PLAN_A;
use crate::load_cases::{by_hand, example_inputs, Input};

pub fn cases() -> Vec<Case> {
    let plan_a = Input::on_records("plan A", &PLAN_A, 0);
    let mut cases = Vec::new();
    for turnaround in [1, 2] {
        cases.extend(every_station(&plan_a, turnaround, &[0, 1, 2, 8]));
    }
    for turnaround in [3, 16] {
        cases.extend(every_station(&plan_a, turnaround, &[8]));
    }
    for input in example_inputs().iter().filter(|input| **input != plan_a) {
        cases.extend(every_station(input, 1, &[8]));
    }
    for (input, turnaround) in by_hand() {
        let turned = every_station(&input, turnaround, &[8]);
        cases.extend(turned.into_iter().map(|case| case.stating(0)));
    }
    cases
}
