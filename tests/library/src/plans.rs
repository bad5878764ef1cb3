//! Generated plans: small and large, valid and damaged, and g and h.

use lister::cases::{damage, doubled, valid_records, Case};
use lister::plan::{KEPT, MOST_CONTACTS, MOST_SLOTS, MOST_STATIONS, MOST_TURNAROUND, RECORD_BYTES};
use lister::plans::{random_plan, Owned};
use lister::random::Random;
use lister::reach_cases::Builder;
use lister::stale::random_stale_plan;
use lister::turned::{drawn_turnaround, random_turned_plan};

/// A valid plan of so many stations and slots: one of three with so many records, each in both
/// directions, or with twice so many in any direction; records that are drawn again count once.
fn drawn(random: &mut Random, stations: usize, slots: usize, wanted: usize) -> Owned {
    let wanted = if stations == 1 { 0 } else { wanted };
    let records = match random.below(3) {
        0 => doubled(&valid_records(random, stations, slots, wanted)),
        _ => valid_records(random, stations, slots, 2 * wanted),
    };
    Owned::new(stations, slots, &records)
}

/// A valid plan with few walks: dense in few slots, a few stations in more slots, or few records.
pub fn small(random: &mut Random) -> Owned {
    match random.below(6) {
        5 => random_stale_plan(random),
        0 => random_turned_plan(random),
        1 | 4 => random_plan(random),
        2 => {
            let (stations, slots) = (random.between(2, 4), random.between(2, 9));
            let wanted = random.between(0, 14);
            drawn(random, stations, slots, wanted)
        }
        _ => {
            let (stations, slots) = (random.between(1, 6), random.between(1, 12));
            let wanted = random.between(0, 12);
            drawn(random, stations, slots, wanted)
        }
    }
}

/// A small valid plan for a round: with turnarounds, with small g and h, and with any g and h, in turn.
pub fn in_turn(random: &mut Random, round: usize) -> Owned {
    match round % 3 {
        0 => random_turned_plan(random),
        1 => random_stale_plan(random),
        _ => {
            let owned = small(random);
            with_terms(random, owned)
        }
    }
}

/// A small plan, or now and then a sparse one of any size; mostly damaged, with other stations or with another size.
pub fn any_damaged(random: &mut Random) -> Owned {
    let owned = match random.below(12) {
        0 => sparse(random),
        _ => small(random),
    };
    match random.below(4) {
        0 => damaged(random, owned),
        1 => other_stations(random, owned),
        2 => resized(random, owned),
        _ => owned,
    }
}

/// A valid plan of any size with few records.
pub fn sparse(random: &mut Random) -> Owned {
    let stations = random.between(1, MOST_STATIONS);
    let slots = random.between(1, MOST_SLOTS);
    let wanted = random.between(0, 40);
    drawn(random, stations, slots, wanted)
}

/// The plan with one or two damages; it may still be valid.
pub fn damaged(random: &mut Random, owned: Owned) -> Owned {
    let mut case = Case {
        label: String::new(),
        stations: owned.stations as u16,
        slots: owned.slots as u16,
        bytes: owned.bytes,
        stated: None,
    };
    for _ in 0..random.between(1, 2) {
        damage(random, &mut case);
    }
    Owned {
        bytes: case.bytes,
        stations: case.stations.into(),
        slots: case.slots.into(),
        turnaround: owned.turnaround,
        keeping: owned.keeping,
    }
}

/// The plan with other stations in a record: one with itself, the sender or the hearer or both not of
/// the plan, or the two exchanged, which may still be valid.
pub fn other_stations(random: &mut Random, mut owned: Owned) -> Owned {
    let records = owned.bytes.len() / RECORD_BYTES;
    if records == 0 {
        return owned;
    }
    let at = RECORD_BYTES * random.below(records);
    let record = &mut owned.bytes[at..at + RECORD_BYTES];
    let outside = (owned.stations + random.below(3)) as u16;
    match random.below(5) {
        0 => record.copy_within(2..4, 4),
        1 => record[2..4].copy_from_slice(&outside.to_be_bytes()),
        2 => record[4..6].copy_from_slice(&outside.to_be_bytes()),
        3 => record[2..6].copy_from_slice(&[outside, outside + 1].map(u16::to_be_bytes).concat()),
        _ => record[2..6].rotate_left(2),
    }
    owned
}

/// A number outside of the limits, or a number that is inside of them only in its low bits.
pub fn far(random: &mut Random, number: usize) -> usize {
    match random.below(6) {
        0 => MOST_STATIONS + 1,
        1 => number + (1 << 8),
        2 => number + (1 << 16),
        3 => number + (1 << 32),
        4 => usize::from(u16::MAX),
        _ => usize::MAX,
    }
}

/// The plan with a turnaround in its limits.
pub fn turned(random: &mut Random, owned: Owned) -> Owned {
    owned.turning(drawn_turnaround(random))
}

/// The plan with g and h in their limits: h is mostly around T, small or 255.
pub fn with_terms(random: &mut Random, owned: Owned) -> Owned {
    let owned = turned(random, owned);
    let least = owned.turnaround;
    let keeping = match random.below(8) {
        0..=2 => KEPT,
        3 => owned.slots.saturating_sub(random.below(3)),
        4 => least,
        5 | 6 => least + random.below(5),
        _ => random.between(least, KEPT),
    };
    owned.keeping_for(keeping.clamp(least, KEPT))
}

/// An h outside of its limits for a g; some are inside of them in their low bits.
pub fn wrong_keeping(random: &mut Random, turnaround: usize) -> usize {
    let known = random.between(turnaround.clamp(1, MOST_TURNAROUND), KEPT);
    match random.below(4) {
        0 => 0,
        1 => turnaround.saturating_sub(1),
        2 => KEPT + 1,
        _ => far(random, known),
    }
}

/// A turnaround outside of its limits; some are inside of them in their low bits.
pub fn wrong_turnaround(random: &mut Random) -> usize {
    let known = random.between(1, MOST_TURNAROUND);
    match random.below(4) {
        0 => 0,
        1 => MOST_TURNAROUND + 1,
        _ => far(random, known),
    }
}

/// The plan with another n or T, mostly outside of its limits.
pub fn resized(random: &mut Random, owned: Owned) -> Owned {
    let (stations, slots) = (owned.stations, owned.slots);
    match random.below(4) {
        0 => Owned {
            stations: 0,
            ..owned
        },
        1 => Owned { slots: 0, ..owned },
        2 => Owned {
            stations: far(random, stations),
            ..owned
        },
        _ => Owned {
            slots: far(random, slots),
            ..owned
        },
    }
}

/// The most records, or one more.
pub fn full(random: &mut Random) -> Owned {
    let stations = random.between(128, MOST_STATIONS);
    let slots = random.between(2, MOST_SLOTS);
    let mut owned = drawn(random, stations, slots, MOST_CONTACTS / 2 + 1000);
    let records = MOST_CONTACTS + random.below(2);
    owned.bytes.truncate(RECORD_BYTES * records);
    owned
}

/// A valid plan with g and too many walks to be listed; some have over 2^64−1 shortest ones. In half of them h is one
/// of the slots from g to 2g.
pub fn large(random: &mut Random) -> Owned {
    let owned = kept_large(random);
    let least = owned.turnaround;
    match random.below(2) {
        0 => owned,
        _ => owned.keeping_for(least + random.below(least + 1)),
    }
}

/// Such a plan with h = 255.
fn kept_large(random: &mut Random) -> Owned {
    match random.below(4) {
        0 => {
            let (stations, slots) = (random.between(8, 64), random.between(4, 63));
            let wanted = random.between(50, 600);
            let owned = drawn(random, stations, slots, wanted);
            turned(random, owned)
        }
        1 => {
            let (stations, slots) = (random.between(2, 10), random.between(20, MOST_SLOTS));
            let wanted = random.between(100, 1200);
            let owned = drawn(random, stations, slots, wanted);
            turned(random, owned)
        }
        2 => Owned::built(&layers(random)),
        _ => Owned::built(&row(random)),
    }
}

/// Layers of stations: in some of the slots between two layers their stations meet, or those of the
/// one send to those of the other, mostly a turnaround or more after the layer before; and a few stations
/// meet in any slot.
fn layers(random: &mut Random) -> Builder {
    let turnaround = drawn_turnaround(random);
    let mut builder = Builder::turning(turnaround);
    let (most_width, most_slots) = (random.between(1, 6), random.between(1, 4));
    let mut before = vec![0];
    let mut slot = 0;
    let mut stations = 1;
    for _ in 0..random.between(8, 40) {
        if slot + turnaround + most_slots + 3 > MOST_SLOTS {
            break;
        }
        slot += match random.below(8) {
            0 => random.below(turnaround),
            _ => turnaround - 1,
        };
        let next = builder.layer(random.between(1, most_width));
        stations += next.len();
        for _ in 0..random.between(1, most_slots) {
            slot += 1;
            for station in &before {
                for other in &next {
                    match random.below(8) {
                        0 => {}
                        1 => builder.send(slot, *other, *station),
                        2 | 3 => builder.meet(slot, *station, *other),
                        _ => builder.send(slot, *station, *other),
                    }
                }
            }
        }
        before = next;
    }
    for _ in 0..random.below(4) {
        let end = random.between(1, stations - 1);
        builder.grow(stations, slot + 1);
        slot += 1;
        builder.meet(slot, random.below(end), end);
    }
    builder
}

/// A row of stations with as many slots between two, and around 2^64 paths from end to end; up to
/// turnaround 3 it fits the slots.
fn row(random: &mut Random) -> Builder {
    let (width, stages) = [(2, 64), (3, 41), (4, 32), (5, 28), (8, 22)][random.below(5)];
    let mut builder = Builder::turning(random.between(1, 3));
    builder.slot_ladder(stages - random.below(4), width);
    builder
}
