//! Small plans in which the earliest slot decides, each with its values.

use crate::foremost::ForemostValues;
use crate::pair_cases::{Case, LabelledPlan};
use crate::plans::{Owned, Records};

/// A plan, and what foremost answers for its first and its last station.
#[derive(Clone, Copy, Debug)]
pub struct Arrival {
    pub label: &'static str,
    /// n and T
    pub sizes: (u16, u16),
    pub records: Records,
    pub values: ForemostValues,
    /// The stations with a through count above 0, and these counts.
    pub through: &'static [(usize, u64)],
}

impl Arrival {
    pub fn owned(&self) -> Owned {
        let (stations, slots) = self.sizes;
        Owned::new(stations.into(), slots.into(), &self.records.all())
    }
}

/// Slot, hops and count.
const fn values(slot: u16, hops: u16, count: u64) -> ForemostValues {
    ForemostValues { slot, hops, count }
}

/// The plans. In a label "then" is in the earliest slot.
pub const ARRIVALS: [Arrival; 22] = [
    Arrival {
        label: "the shortest path comes later",
        sizes: (3, 3),
        records: Records::Doubled(&[(1, 0, 1), (2, 1, 2), (3, 0, 2)]),
        values: values(2, 2, 1),
        through: &[(1, 1)],
    },
    Arrival {
        label: "two then, the shortest in the next slot",
        sizes: (4, 3),
        records: Records::Doubled(&[(1, 0, 1), (1, 0, 2), (2, 1, 3), (2, 2, 3), (3, 0, 3)]),
        values: values(2, 2, 2),
        through: &[(1, 1), (2, 1)],
    },
    Arrival {
        label: "more hops the earlier",
        sizes: (4, 5),
        records: Records::Doubled(&[(1, 0, 1), (2, 1, 2), (3, 2, 3), (4, 1, 3), (5, 0, 3)]),
        values: values(3, 3, 1),
        through: &[(1, 1), (2, 1)],
    },
    Arrival {
        label: "fewer hops the earlier",
        sizes: (4, 3),
        records: Records::Doubled(&[(1, 0, 1), (1, 0, 3), (2, 1, 2), (2, 1, 3), (3, 2, 3)]),
        values: values(1, 1, 1),
        through: &[],
    },
    Arrival {
        label: "two and three hops then",
        sizes: (4, 4),
        records: Records::Doubled(&[(1, 0, 1), (2, 1, 2), (3, 1, 3), (3, 2, 3), (4, 0, 3)]),
        values: values(3, 2, 1),
        through: &[(1, 1)],
    },
    Arrival {
        label: "one, two and three hops then",
        sizes: (4, 3),
        records: Records::Doubled(&[(1, 0, 1), (2, 1, 2), (3, 0, 3), (3, 1, 3), (3, 2, 3)]),
        values: values(3, 1, 1),
        through: &[],
    },
    Arrival {
        label: "two and three hops then, three paths with two",
        sizes: (6, 5),
        records: Records::Doubled(&[
            (1, 0, 1),
            (1, 0, 2),
            (2, 0, 2),
            (2, 1, 3),
            (3, 3, 4),
            (4, 1, 5),
            (4, 2, 5),
            (4, 3, 5),
            (4, 4, 5),
            (5, 0, 5),
        ]),
        values: values(4, 2, 3),
        through: &[(1, 1), (2, 2)],
    },
    Arrival {
        label: "three hops alone then, two in the next slot",
        sizes: (4, 4),
        records: Records::Doubled(&[(1, 0, 1), (2, 1, 2), (3, 2, 3), (4, 1, 3), (4, 2, 3)]),
        values: values(3, 3, 1),
        through: &[(1, 1), (2, 1)],
    },
    Arrival {
        label: "a first hop in each of two slots",
        sizes: (3, 4),
        records: Records::Doubled(&[(1, 0, 1), (2, 0, 1), (3, 1, 2), (4, 1, 2)]),
        values: values(3, 2, 2),
        through: &[(1, 2)],
    },
    Arrival {
        label: "a contact in every slot",
        sizes: (2, 4),
        records: Records::Doubled(&[(1, 0, 1), (2, 0, 1), (3, 0, 1), (4, 0, 1)]),
        values: values(1, 1, 1),
        through: &[],
    },
    Arrival {
        label: "a contact in the last slot alone",
        sizes: (2, 4),
        records: Records::Doubled(&[(4, 0, 1)]),
        values: values(4, 1, 1),
        through: &[],
    },
    Arrival {
        label: "walks that come back to the source then too",
        sizes: (3, 3),
        records: Records::Doubled(&[(1, 0, 1), (2, 0, 1), (3, 0, 2), (3, 1, 2)]),
        values: values(3, 1, 1),
        through: &[],
    },
    Arrival {
        label: "walks that visit a station twice then too",
        sizes: (4, 5),
        records: Records::Doubled(&[(1, 0, 1), (2, 1, 2), (3, 1, 2), (4, 1, 3), (5, 0, 3)]),
        values: values(4, 2, 1),
        through: &[(1, 1)],
    },
    Arrival {
        label: "paths of equal hops, some of them later",
        sizes: (5, 4),
        records: Records::Doubled(&[
            (1, 0, 1),
            (1, 0, 2),
            (1, 0, 3),
            (2, 1, 4),
            (2, 2, 4),
            (3, 2, 4),
            (3, 3, 4),
            (4, 1, 4),
        ]),
        values: values(2, 2, 2),
        through: &[(1, 1), (2, 1)],
    },
    Arrival {
        label: "the destination meets others before it is reached",
        sizes: (4, 4),
        records: Records::Doubled(&[(1, 1, 3), (1, 2, 3), (2, 0, 1), (3, 1, 2), (4, 2, 3)]),
        values: values(4, 3, 1),
        through: &[(1, 1), (2, 1)],
    },
    Arrival {
        label: "no path, though all meet",
        sizes: (3, 2),
        records: Records::Doubled(&[(1, 1, 2), (2, 0, 1)]),
        values: values(65535, 65535, 0),
        through: &[],
    },
    Arrival {
        label: "one way, the shortest path comes later",
        sizes: (3, 3),
        records: Records::OneWay(&[(1, 0, 1), (2, 1, 2), (3, 0, 2)]),
        values: values(2, 2, 1),
        through: &[(1, 1)],
    },
    Arrival {
        label: "one way, the earliest contact leads back",
        sizes: (3, 3),
        records: Records::OneWay(&[(1, 2, 0), (2, 0, 1), (3, 1, 2)]),
        values: values(3, 2, 1),
        through: &[(1, 1)],
    },
    Arrival {
        label: "one way, the destination sends before it hears",
        sizes: (4, 4),
        records: Records::OneWay(&[(1, 3, 0), (1, 3, 1), (2, 0, 1), (3, 1, 3), (4, 0, 3)]),
        values: values(3, 2, 1),
        through: &[(1, 1)],
    },
    Arrival {
        label: "one way, a cycle the earlier, one hop later",
        sizes: (4, 4),
        records: Records::OneWay(&[(1, 0, 1), (2, 1, 2), (3, 2, 3), (4, 0, 3), (4, 3, 0)]),
        values: values(3, 3, 1),
        through: &[(1, 1), (2, 1)],
    },
    Arrival {
        label: "one way, two and three hops then",
        sizes: (4, 3),
        records: Records::OneWay(&[(1, 0, 1), (2, 1, 2), (3, 1, 3), (3, 2, 3)]),
        values: values(3, 2, 1),
        through: &[(1, 1)],
    },
    Arrival {
        label: "one way, no path, all lead to the first",
        sizes: (3, 2),
        records: Records::OneWay(&[(1, 1, 0), (1, 2, 1), (2, 2, 0)]),
        values: values(65535, 65535, 0),
        through: &[],
    },
];

/// Foremost from the first station to the last of each plan, and back.
pub fn cases() -> Vec<Case> {
    let calls = |arrival: &Arrival| {
        let plan = LabelledPlan::of_records(arrival.label, arrival.sizes, &arrival.records.all());
        let last = arrival.sizes.0 - 1;
        [plan.foremost(0, last), plan.foremost(last, 0)].map(|case| case.stating(0))
    };
    ARRIVALS.iter().flat_map(calls).collect()
}
