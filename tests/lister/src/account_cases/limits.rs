//! 32 stations, 63 slots and 1,024 records, with long texts.

use super::{some_stations, Case};
use crate::load_cases::{cycle, spread_records, Input};
use crate::load_program::{MOST_CONTACTS, MOST_SLOTS};

pub fn cases() -> Vec<Case> {
    let spread = spread_records(MOST_CONTACTS);
    let spread = Input::on_records("spread records", &spread, 0);
    let every_slot = Input::on_bytes("cycle", cycle(32..=MOST_SLOTS), 0);
    let odd_slots = cycle((1..=MOST_SLOTS).step_by(2));
    let odd_slots = Input::on_bytes("cycle in odd slots", odd_slots, 0);
    let cases = [
        some_stations(&spread, 2, &[0, 16], &[8]),
        some_stations(&every_slot, 1, &[31], &[0]),
        some_stations(&odd_slots, 2, &[16], &[8]),
    ];
    let cases = cases.concat().into_iter();
    cases.map(|case| case.stating(0)).collect()
}
