//! Traces at n 256 and T 255, and at 8,192 records.

use super::{marks, Arguments, Case, Step};
use crate::cases::{doubled, plan_bytes, Record};
use crate::reach_cases::{falling_row, rising_row, star, CORNERS};
use crate::ways::Way;

const SIZES: (u16, u16) = (256, 255);

pub fn cases() -> Vec<Case> {
    vec![
        corners(),
        all_slots(),
        all_slots_falling(),
        no_path(),
        most_records(),
        last_positions(),
        narrow(),
    ]
}

/// Three ways of two hops, by the first and the last stations and slots.
fn corners() -> Case {
    let case = Case::on_records("n 256, T 255, corners, 0 to 254", SIZES, &CORNERS, (0, 254));
    let case = case.holding(marks(256)).longer_scratch(56);
    let scratch_short = Arguments {
        scratch_length: 262_143,
        ..case.pair
    };
    let buffer_short = Arguments {
        buffer_length: 254,
        ..case.pair
    };
    case.first()
        .then(Step::Call(Way::Next, scratch_short))
        .next(1)
        .then(Step::Call(Way::Next, buffer_short))
        .next(2)
        .stating(&[
            "path 2",
            "refused 8",
            "path 2",
            "refused 8",
            "path 2",
            "last",
        ])
}

/// A way of 255 hops: the buffer has no entry behind them, or 45.
fn all_slots() -> Case {
    let case = Case::on_records("n 256, T 255, 255 hops", SIZES, &rising_row(), (0, 255));
    let exact = Arguments {
        buffer_length: 255,
        ..case.pair
    };
    let mut offered: Vec<u16> = (0..255).map(|hop| 2 * hop).collect();
    offered[254] = 509;
    case.beginning(&offered, 300)
        .next(1)
        .first()
        .then(Step::Write(255, 65535))
        .then(Step::Call(Way::Next, exact))
        .next(1)
        .stating(&["refused 10", "path 255", "last", "last"])
}

/// A way of 255 hops, each to a smaller number.
fn all_slots_falling() -> Case {
    let label = "n 256, T 255, 255 hops, falling";
    let case = Case::on_records(label, SIZES, &falling_row(), (255, 0));
    let all: Vec<u16> = (0..255).collect();
    case.beginning(&all, 255)
        .next(1)
        .first()
        .stating(&["last", "path 255"])
}

/// From the last station to the first there is no way.
fn no_path() -> Case {
    let case = Case::on_records("n 256, T 255, 255 to 0", SIZES, &rising_row(), (255, 0));
    case.first().next(1).stating(&["none", "refused 10"])
}

/// 8,192 records, the last of which is a way; one more record is 2.
fn most_records() -> Case {
    let mut case = Case::on_records("8192 records, 255 to 0", SIZES, &star(), (255, 0));
    assert_eq!(case.list, [[8191]]);
    let more = case.with_plan(&plan_bytes(&[(255, 255, 1)]));
    let too_long = Arguments {
        plan_from: 0,
        plan_length: case.pair.plan_length + more.plan_length,
        ..case.pair
    };
    case.beginning(&[8192], 255)
        .next(1)
        .first()
        .then(Step::Call(Way::First, too_long))
        .then(Step::Call(Way::Next, too_long))
        .next(1)
        .stating(&["refused 10", "path 1", "refused 2", "refused 2", "last"])
}

/// 8,192 records with three ways of two hops; their second hops are the last three records.
fn last_positions() -> Case {
    let mut records: Vec<Record> = (1..=3).map(|station| (1, 0, station)).collect();
    let others = (2..=254).flat_map(|slot| (4..252).map(move |a| (slot, a, 255 - a)));
    records.extend(others.take(8192 - 6));
    records.extend((1..=3).map(|station| (255, station, 255)));
    assert_eq!(records.len(), 8192);
    let case = Case::on_records("8192 records, 0 to 255", SIZES, &records, (0, 255));
    assert_eq!(case.list, [[0, 8189], [1, 8190], [2, 8191]]);
    case.first()
        .next(3)
        .stating(&["path 2", "path 2", "path 2", "last"])
}

/// Two stations that meet in eight slots: eight ways of one hop.
fn narrow() -> Case {
    let meetings: Vec<Record> = (1..=8).map(|meeting| (31 * meeting + 7, 0, 1)).collect();
    let records = doubled(&meetings);
    let case = Case::on_records("n 2, T 255, eight slots", (2, 255), &records, (1, 0));
    let mut stated = ["path 1"; 10];
    stated[8..].fill("last");
    case.first().next(9).stating(&stated)
}
