//! Loads of 1 to 13 digits, and the longest text.

use super::Input;
use crate::load_program::{MOST_CONTACTS, MOST_SLOTS, MOST_STATIONS};
use crate::plans::Owned;
use crate::reach_cases::Builder;

pub fn inputs() -> Vec<Input> {
    let mut inputs = rare_paths();
    inputs.extend(stars());
    inputs.extend(one_way_stars());
    inputs.push(Input::on_bytes("longest text", cycle(32..=MOST_SLOTS), 0));
    inputs
}

/// Hops, slots and turnaround of a row of stations with a rare path.
#[derive(Clone, Copy, Debug)]
pub struct RarePath {
    pub hops: usize,
    pub slots: usize,
    pub turnaround: usize,
}

/// A row of stations from 0 to `hops`, and one more station, which is interior to a single path of a
/// single pair. Answers the plan, the station and the count of the pair.
///
/// Each hop of the row has all slots that a walk of so many hops within `slots` slots can use, so the
/// row alone has as many paths from end to end as there are choices of `hops` slots that are a turnaround
/// apart. The further station is the last but one of the path that uses the first slots. Contacts in slot 1
/// make other pairs with the last station neighbours, and come too early for a walk from station 0.
pub fn rare_path(path: RarePath) -> (Vec<u8>, usize, u64) {
    let RarePath {
        hops,
        slots,
        turnaround,
    } = path;
    let mut builder = Builder::turning(turnaround);
    let row = [vec![0], builder.layer(hops)].concat();
    let rare = builder.station();
    let first = |hop: usize| 1 + turnaround * hop;
    for hop in 0..hops {
        for slot in first(hop)..=slots - turnaround * (hops - 1 - hop) {
            builder.meet(slot, row[hop], row[hop + 1]);
        }
    }
    builder.meet(first(hops - 2), row[hops - 2], rare);
    builder.meet(first(hops - 1), rare, row[hops]);
    for station in 1..hops - 1 {
        builder.meet(1, row[station], row[hops]);
    }
    let free = slots - (turnaround - 1) * (hops - 1);
    let choices = (0..hops as u64).fold(1, |all, at| all * (free as u64 - at) / (at + 1));
    (Owned::built(&builder).bytes, rare, choices + 1)
}

/// Hops and slots of rare paths with g = 1: shares of 10 digits, of 9, and so on to 1, then the share 0.
pub const RARE_PATHS: [(usize, usize); 11] = [
    (2, 2),
    (2, 5),
    (2, 20),
    (2, 63),
    (3, 40),
    (4, 40),
    (5, 50),
    (6, 50),
    (7, 50),
    (8, 60),
    (9, 63),
];

fn rare_paths() -> Vec<Input> {
    let input = |(hops, slots): (usize, usize)| {
        let turnaround = 1;
        let (bytes, rare, count) = rare_path(RarePath {
            hops,
            slots,
            turnaround,
        });
        let label = format!("station {rare} in one of {count} paths");
        Input::on_bytes(&label, bytes, 0)
    };
    RARE_PATHS.map(input).to_vec()
}

/// A centre that meets all others in two slots: every pair of others has one path.
fn star(stations: usize, centre: usize, slots: [usize; 2]) -> Vec<u8> {
    let mut builder = Builder::start();
    builder.grow(stations, 1);
    let others: Vec<usize> = (0..stations).filter(|other| *other != centre).collect();
    for slot in slots {
        builder.meet_all(slot, centre, &others);
    }
    Owned::built(&builder).bytes
}

/// Stars, whose centres have loads of (n−1)(n−2) × 2^32: 10 to 13 digits.
fn stars() -> Vec<Input> {
    let mut inputs = Vec::new();
    for stations in [3, 4, 5, 6, 7, 11, 12, 16, 17, 31, MOST_STATIONS] {
        for (centre, slots) in [
            (0, [1, 2]),
            (stations - 1, [1, 63]),
            (stations / 2, [7, 40]),
        ] {
            let label = format!("star of {stations} stations around {centre}, slots {slots:?}");
            inputs.push(Input::on_bytes(&label, star(stations, centre, slots), 0));
        }
    }
    inputs
}

/// A centre that hears all others in one slot and sends to them in a later one: the same loads. Where it
/// sends first, all loads are 0.
fn one_way_stars() -> Vec<Input> {
    let mut inputs = Vec::new();
    for (stations, centre, [hears, sends]) in [
        (3, 1, [1, 2]),
        (MOST_STATIONS, 0, [1, 63]),
        (MOST_STATIONS, 31, [40, 41]),
        (MOST_STATIONS, 16, [63, 1]),
    ] {
        let mut builder = Builder::start();
        builder.grow(stations, 1);
        for other in (0..stations).filter(|other| *other != centre) {
            builder.send(hears, other, centre);
            builder.send(sends, centre, other);
        }
        let label = format!("{centre} of {stations} hears in slot {hears}, sends in {sends}");
        inputs.push(Input::on_bytes(&label, Owned::built(&builder).bytes, 0));
    }
    inputs
}

/// A cycle of 32 stations in which each sends to the next in 32 slots: 1,024 records. Where these are a turnaround
/// apart every other station is interior to 465 pairs, whole, so all lines have their most digits.
pub fn cycle(slots: impl Iterator<Item = usize>) -> Vec<u8> {
    let mut builder = Builder::start();
    builder.grow(MOST_STATIONS, MOST_SLOTS);
    for slot in slots {
        for sender in 0..MOST_STATIONS {
            builder.send(slot, sender, (sender + 1) % MOST_STATIONS);
        }
    }
    assert_eq!(builder.contacts(), MOST_CONTACTS);
    Owned::built(&builder).bytes
}
