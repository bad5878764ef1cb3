//! Plans built from ladders, and the ladders that document 01 names.

use super::{Case, Counting, Operation};
use crate::cases::{plan_bytes, Record};
use crate::plan::{read, PlanInput, KEPT, LEAST_TURNAROUND};
use crate::reach::Entries;

/// Joins two stations in a slot: `Builder::meet` or `Builder::send`.
type Join = fn(&mut Builder, usize, usize, usize);

/// A plan in the making; station 0 is the source.
#[derive(Clone, Debug)]
pub struct Builder {
    stations: usize,
    slots: usize,
    turnaround: usize,
    records: Vec<Record>,
}

impl Builder {
    /// The source alone, with the smallest turnaround.
    pub fn start() -> Builder {
        Builder::turning(LEAST_TURNAROUND)
    }

    /// The source alone, with a turnaround.
    pub fn turning(turnaround: usize) -> Builder {
        Builder {
            stations: 1,
            slots: 1,
            turnaround,
            records: Vec::new(),
        }
    }

    /// A new station.
    pub fn station(&mut self) -> usize {
        self.stations += 1;
        self.stations - 1
    }

    /// So many new stations.
    pub fn layer(&mut self, width: usize) -> Vec<usize> {
        (0..width).map(|_| self.station()).collect()
    }

    /// A station sends in a slot, and another hears.
    pub fn send(&mut self, slot: usize, sender: usize, hearer: usize) {
        self.slots = self.slots.max(slot);
        self.records
            .push((slot as u16, sender as u16, hearer as u16));
    }

    /// Two stations hear each other in a slot: two records.
    pub fn meet(&mut self, slot: usize, one: usize, other: usize) {
        self.send(slot, one, other);
        self.send(slot, other, one);
    }

    /// A station hears each of some others in a slot.
    pub fn hear_all(&mut self, slot: usize, hearer: usize, senders: &[usize]) {
        for sender in senders {
            self.send(slot, *sender, hearer);
        }
    }

    /// A station meets each of some others in a slot.
    pub fn meet_all(&mut self, slot: usize, one: usize, others: &[usize]) {
        for other in others {
            self.meet(slot, one, *other);
        }
    }

    /// More stations and slots, without contacts.
    pub fn grow(&mut self, stations: usize, slots: usize) {
        self.stations = self.stations.max(stations);
        self.slots = self.slots.max(slots);
    }

    /// n and T.
    pub fn sizes(&self) -> (u16, u16) {
        (self.stations as u16, self.slots as u16)
    }

    /// g.
    pub fn turnaround(&self) -> usize {
        self.turnaround
    }

    /// The slot of a hop, counted from 1, where a turnaround lies between two: 1, 1 + g, 1 + 2g and so on.
    pub fn slot_of(&self, hop: usize) -> usize {
        1 + self.turnaround * (hop - 1)
    }

    /// The plan with other numbers for its stations.
    fn renumbered(mut self, number: impl Fn(u16) -> u16) -> Builder {
        for (_, sender, hearer) in &mut self.records {
            (*sender, *hearer) = (number(*sender), number(*hearer));
        }
        self
    }

    /// The plan with the source behind so many other stations, which keep their order.
    pub fn with_source(self, source: usize) -> Builder {
        let source = source as u16;
        self.renumbered(|station| match station {
            0 => source,
            _ if station <= source => station - 1,
            _ => station,
        })
    }

    /// The plan with its stations in the other order; the source is the last.
    pub fn reversed(self) -> Builder {
        let last = self.stations as u16 - 1;
        self.renumbered(|station| last - station)
    }

    /// The plan.
    pub fn bytes(&self) -> Vec<u8> {
        let mut records = self.records.clone();
        records.sort_unstable();
        plan_bytes(&records)
    }

    /// The position of a record: how many stand before it.
    pub fn position(&self, record: Record) -> usize {
        let before = self.records.iter().filter(|other| **other < record);
        before.count()
    }

    /// The last record in which a station hears.
    pub fn last_heard(&self, hearer: u16) -> Record {
        let heard = self.records.iter().filter(|record| record.2 == hearer);
        *heard.max().expect("a station that hears")
    }

    /// The number of records.
    pub fn contacts(&self) -> usize {
        self.records.len()
    }

    /// The entries from the source.
    pub fn entries(&self) -> Entries {
        let input = PlanInput {
            bytes: &self.bytes(),
            stations: self.stations,
            slots: self.slots,
            turnaround: self.turnaround,
            keeping: KEPT,
        };
        let plan = read(input).expect("an accepted plan");
        Counting::Fast.entries(&plan, 0)
    }

    /// Reach from the source, on tables of exactly the named lengths.
    pub fn case(&self, label: &str) -> Case {
        let case = Case::on_bytes(label, self.sizes(), self.bytes(), 0);
        let case = case.turning(self.turnaround as u16);
        Case {
            counting: Counting::Fast,
            ..case
        }
    }

    /// Layers of equal width, a turnaround between two from slot 1 on, every station joined to all of the
    /// next layer. Answers the last layer.
    fn layers(&mut self, layers: usize, width: usize, join: Join) -> Vec<usize> {
        let mut last = vec![0];
        for layer in 1..=layers {
            let slot = self.slot_of(layer);
            let next = self.layer(width);
            for station in last {
                for other in &next {
                    join(self, slot, station, *other);
                }
            }
            last = next;
        }
        last
    }

    /// Layers whose stations meet all of the next one.
    pub fn ladder(&mut self, layers: usize, width: usize) -> Vec<usize> {
        self.layers(layers, width, Builder::meet)
    }

    /// Layers whose stations send to all of the next one, and hear none of it.
    pub fn sent_ladder(&mut self, layers: usize, width: usize) -> Vec<usize> {
        self.layers(layers, width, Builder::send)
    }

    /// A row of stations, each meeting the next in `width` slots, and a turnaround before the slots of the
    /// next two. Answers the last station.
    pub fn slot_ladder(&mut self, stages: usize, width: usize) -> usize {
        let mut last = 0;
        for stage in 0..stages {
            let next = self.station();
            let first = 1 + stage * (width - 1 + self.turnaround);
            for slot in first..first + width {
                self.meet(slot, last, next);
            }
            last = next;
        }
        last
    }
}

/// A ladder alone, whose stations meet.
pub fn ladder(layers: usize, width: usize) -> Builder {
    spaced_ladder(LEAST_TURNAROUND, layers, width)
}

/// A ladder alone, whose stations send to the next layer.
pub fn sent_ladder(layers: usize, width: usize) -> Builder {
    spaced_sent_ladder(LEAST_TURNAROUND, layers, width)
}

/// A ladder whose layers are a turnaround apart, and whose stations meet.
pub fn spaced_ladder(turnaround: usize, layers: usize, width: usize) -> Builder {
    let mut builder = Builder::turning(turnaround);
    builder.ladder(layers, width);
    builder
}

/// A ladder whose layers are a turnaround apart, and whose stations send to the next layer.
pub fn spaced_sent_ladder(turnaround: usize, layers: usize, width: usize) -> Builder {
    let mut builder = Builder::turning(turnaround);
    builder.sent_ladder(layers, width);
    builder
}

/// Ladders whose layers are a turnaround apart: the turnaround, the layers, their width, and the number
/// from the source. 64 layers fit 255 slots up to turnaround 4, 65 up to 3.
pub const SPACED_LADDERS: [(usize, usize, usize, u8); 7] = [
    (2, 64, 2, 0),
    (2, 65, 2, 9),
    (3, 65, 2, 9),
    (4, 64, 2, 0),
    (6, 41, 3, 0),
    (6, 42, 3, 9),
    (16, 16, 4, 0),
];

/// A ladder of two stations a layer that send to the next layer. Behind the source the numbers fall:
/// the first layer has the two largest, the last one 2 and 1.
pub fn falling_ladder(layers: usize) -> Builder {
    sent_ladder(layers, 2).renumbered(|station| match station {
        0 => 0,
        _ => 2 * layers as u16 + 1 - station,
    })
}

pub fn cases() -> Vec<Case> {
    [
        named_ladders(),
        other_sources(),
        other_widths(),
        one_way_ladders(),
    ]
    .concat()
}

/// 63, 64 and 65 layers, on tables of the named lengths and longer.
fn named_ladders() -> Vec<Case> {
    let mut cases = Vec::new();
    for (layers, stated) in [(63, 0), (64, 0), (65, 9)] {
        let builder = ladder(layers, 2);
        let last = builder.entries().station(2 * layers);
        let (hops, count) = (layers as u16, 1 << (layers - 1));
        assert_eq!((last.hops, last.count), (hops, count));
        assert_eq!(builder.stations, 2 * layers + 1);
        assert_eq!(builder.contacts(), 8 * layers - 4);
        let label = format!("ladder of {layers} layers");
        cases.push(builder.case(&label).stating(stated));
        let label = format!("ladder of {layers} layers, longer tables");
        let longer = builder.case(&label).longer([9, 8, 7, 6]);
        cases.push(longer.marked(4321).stating(stated));
    }
    cases
}

/// 65 layers from other sources, which have fewer walks.
fn other_sources() -> Vec<Case> {
    let case = |source: u16| {
        let label = format!("ladder of 65 layers, from {source}");
        let case = ladder(65, 2).case(&label).stating(0);
        Case {
            operation: Operation::Reach(source),
            ..case
        }
    };
    [1, 2, 3, 129, 130].map(case).to_vec()
}

/// 64 and 65 layers that send to the next: from the source, and from a station that then hears no
/// other layer.
fn one_way_ladders() -> Vec<Case> {
    let mut cases = Vec::new();
    for (layers, stated) in [(64, 0), (65, 9)] {
        for (name, builder, end) in [
            ("sent", sent_ladder(layers, 2), 2 * layers),
            ("falling", falling_ladder(layers), 1),
        ] {
            let last = builder.entries().station(end);
            let (hops, count) = (layers as u16, 1 << (layers - 1));
            assert_eq!((last.hops, last.count), (hops, count));
            assert_eq!(builder.contacts(), 4 * layers - 2);
            let label = format!("{name} ladder of {layers} layers");
            cases.push(builder.case(&label).stating(stated));
            let label = format!("{name} ladder of {layers} layers, from {end}");
            cases.push(Case {
                operation: Operation::Reach(end as u16),
                ..builder.case(&label).stating(0)
            });
        }
    }
    cases
}

/// Ladders of other widths whose stations send to the next layer alone, the last accepted one and the
/// first that is not.
fn other_widths() -> Vec<Case> {
    let mut cases = Vec::new();
    for (width, layers, stated) in [
        (3, 41, 0),
        (3, 42, 9),
        (4, 32, 0),
        (4, 33, 9),
        (5, 28, 0),
        (5, 29, 9),
        (7, 23, 0),
        (7, 24, 9),
    ] {
        let builder = sent_ladder(layers, width);
        let last = builder.entries().station(width * layers);
        assert_eq!(last.count, (width as u128).pow(layers as u32 - 1));
        assert_eq!(last.count > u128::from(u64::MAX), stated == 9);
        let label = format!("sent ladder of {layers} layers, {width} wide");
        cases.push(builder.case(&label).stating(stated));
    }
    cases
}
