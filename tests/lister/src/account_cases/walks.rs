//! Walks with the station interior and walks without it between them, more of them than the number asked for, as many
//! and fewer; pairs of one hop; many hops; shares of few digits.

use super::{every_station, some_stations, Case};
use crate::cases::{doubled, Record};
use crate::load_cases::{on_table, rare_path, Input, RarePath, RARE_PATHS, RARE_TWO_SLOTS};
use crate::load_program::MOST_STATIONS;

/// Every number of walks.
const NUMBERS: [u16; 9] = [0, 1, 2, 3, 4, 5, 6, 7, 8];

pub fn cases() -> Vec<Case> {
    [between(), around_the_number(), small(), rows(), shares()].concat()
}

/// From 0 to stations 1 to `width` in so many slots, and from these to one more, two slots later. Of the walks from
/// end to end one in `width` has a given station interior, and the others stand between.
fn fan(width: u16, slots: u16) -> Vec<Record> {
    let of_slot = |slot: u16| (1..=width).map(move |station| (slot, 0, station));
    let mut records: Vec<Record> = (1..=slots).flat_map(of_slot).collect();
    records.extend((1..=width).map(|station| (slots + 2, station, width + 1)));
    records
}

/// Every number of walks where others stand between those with the station.
fn between() -> Vec<Case> {
    let inputs = on_table(&[
        ("three in turn", &fan(3, 4), 0),
        (
            "two in turn at the second hop",
            &[
                (1, 0, 1),
                (3, 1, 2),
                (3, 1, 3),
                (4, 1, 2),
                (4, 1, 3),
                (6, 2, 4),
                (6, 3, 4),
                (7, 2, 4),
                (7, 3, 4),
            ],
            0,
        ),
        ("meetings in turn", &doubled(&fan(2, 3)), 0),
    ]);
    let mut cases = Vec::new();
    for input in &inputs {
        cases.extend(every_station(input, 1, &NUMBERS));
        cases.extend(every_station(input, 2, &[0, 1, 3, 8]));
    }
    cases
}

/// 1, 7, 8 and 9 walks with the station, and numbers around them.
fn around_the_number() -> Vec<Case> {
    let mut cases = Vec::new();
    for walks in [1, 7, 8, 9] {
        let input = Input::on_records(&format!("{walks} of each"), &fan(2, walks), 0);
        cases.extend(some_stations(&input, 2, &[1, 2], &[0, 1, 6, 7, 8]));
    }
    cases
}

/// Small plans: a pair of one hop beside a walk of two, ties whose order is not that of the stations, and a walk that
/// is longer than the shortest.
fn small() -> Vec<Case> {
    let inputs = on_table(&[
        ("one hop beside two", &[(1, 0, 1), (3, 1, 2), (5, 0, 2)], 0),
        ("one hop alone", &[(7, 0, 1)], 0),
        (
            "two hops beside three",
            &[(1, 0, 1), (3, 1, 2), (3, 1, 3), (5, 2, 3)],
            0,
        ),
        (
            "ties, the later first",
            &[(1, 0, 2), (2, 0, 1), (4, 1, 3), (5, 2, 3)],
            0,
        ),
        (
            "ties by the last hop",
            &[(1, 0, 1), (1, 0, 2), (3, 2, 3), (4, 1, 3), (4, 2, 3)],
            0,
        ),
        (
            "both directions through one",
            &doubled(&[(1, 0, 1), (3, 1, 2), (5, 0, 1)]),
            0,
        ),
    ]);
    let mut cases = Vec::new();
    for input in &inputs {
        for turnaround in [1, 2, 3] {
            cases.extend(every_station(input, turnaround, &[0, 8]));
        }
    }
    let far = Input::on_records("slot 63, station 31", &[(1, 0, 31), (63, 31, 9)], 0);
    for turnaround in [1, 2, 16] {
        cases.extend(some_stations(&far, turnaround, &[0, 9, 31], &[0, 8]));
    }
    cases
}

/// A row of 32 stations that meet the next one, each two slots later than the one before.
fn rows() -> Vec<Case> {
    let meeting = |station: u16| (1 + 2 * station, station, station + 1);
    let records: Vec<Record> = (0..MOST_STATIONS as u16 - 1).map(meeting).collect();
    let input = Input::on_records("row of 31 hops", &doubled(&records), 0);
    let ends = some_stations(&input, 2, &[0, 1, 2, 30, 31], &[0, 1, 8]);
    [ends, some_stations(&input, 2, &[15], &[8])].concat()
}

/// A station interior to one walk of a single pair, whose share has few digits or is 0; and a station of the other
/// walks.
fn shares() -> Vec<Case> {
    let mut cases = Vec::new();
    for (turnaround, paths) in [(1, RARE_PATHS), (2, RARE_TWO_SLOTS)] {
        for place in [0, 1, 7, 10] {
            let (hops, slots) = paths[place];
            let path = RarePath {
                hops,
                slots,
                turnaround,
            };
            let (bytes, rare, count) = rare_path(path);
            let input = Input::on_bytes(&format!("one of {count} walks"), bytes, 0);
            let stations = [rare as u16, 1];
            let stations = if place < 10 {
                &stations
            } else {
                &stations[..1]
            };
            cases.extend(some_stations(&input, turnaround as u16, stations, &[8]));
        }
    }
    cases
}
