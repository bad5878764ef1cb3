//! Plans in which several stations have the largest load, and plans in which one has it alone that is
//! not the first with a load.

use super::{Case, LabelledPlan};
use crate::plans::{Owned, Records};

/// A plan, with all stations that have its largest load.
#[derive(Clone, Copy, Debug)]
pub struct TiedPlan {
    pub label: &'static str,
    /// n and T
    pub sizes: (u16, u16),
    pub records: Records,
    pub largest: &'static [usize],
}

impl TiedPlan {
    pub fn owned(&self) -> Owned {
        let (stations, slots) = self.sizes;
        Owned::new(stations.into(), slots.into(), &self.records.all())
    }
}

/// The plans. In a plan of up to 3 stations at most one load is above 0, so ties above 0 need 4.
pub const TIED_PLANS: [TiedPlan; 23] = [
    TiedPlan {
        label: "one station",
        sizes: (1, 3),
        records: Records::OneWay(&[]),
        largest: &[0],
    },
    TiedPlan {
        label: "all loads 0, one slot",
        sizes: (4, 1),
        records: Records::Doubled(&[(1, 0, 1), (1, 1, 2), (1, 2, 3)]),
        largest: &[0, 1, 2, 3],
    },
    TiedPlan {
        label: "all loads 0, all meet",
        sizes: (3, 2),
        records: Records::Doubled(&[(1, 0, 1), (1, 0, 2), (1, 1, 2), (2, 0, 1), (2, 1, 2)]),
        largest: &[0, 1, 2],
    },
    TiedPlan {
        label: "two equal, 0 and 1",
        sizes: (4, 2),
        records: Records::Doubled(&[(1, 0, 3), (1, 1, 2), (2, 0, 1)]),
        largest: &[0, 1],
    },
    TiedPlan {
        label: "two equal, 0 and 3",
        sizes: (4, 2),
        records: Records::Doubled(&[(1, 0, 2), (1, 1, 3), (2, 0, 3)]),
        largest: &[0, 3],
    },
    TiedPlan {
        label: "two equal, 1 and 2",
        sizes: (4, 2),
        records: Records::Doubled(&[(1, 0, 2), (1, 1, 3), (2, 1, 2)]),
        largest: &[1, 2],
    },
    TiedPlan {
        label: "two equal, 2 and 3, smaller equal ones before",
        sizes: (4, 3),
        records: Records::Doubled(&[(1, 0, 3), (1, 1, 3), (2, 1, 2), (2, 1, 3), (3, 0, 2)]),
        largest: &[2, 3],
    },
    TiedPlan {
        label: "two equal, 1 and 4, a smaller one before",
        sizes: (5, 4),
        records: Records::Doubled(&[
            (1, 0, 2),
            (2, 0, 1),
            (3, 1, 4),
            (3, 3, 4),
            (4, 1, 4),
            (4, 3, 4),
        ]),
        largest: &[1, 4],
    },
    TiedPlan {
        label: "two equal, 0 and 2, the later has more pairs",
        sizes: (5, 4),
        records: Records::Doubled(&[
            (1, 1, 2),
            (2, 0, 2),
            (2, 0, 3),
            (2, 1, 4),
            (3, 0, 4),
            (3, 1, 2),
            (3, 2, 4),
            (4, 0, 3),
            (4, 1, 3),
            (4, 2, 3),
        ]),
        largest: &[0, 2],
    },
    TiedPlan {
        label: "two equal, 1 and 2, the later has fewer pairs",
        sizes: (5, 3),
        records: Records::Doubled(&[
            (1, 0, 3),
            (1, 1, 2),
            (1, 1, 3),
            (1, 1, 4),
            (2, 0, 2),
            (2, 1, 2),
            (2, 2, 4),
            (3, 0, 1),
            (3, 2, 4),
        ]),
        largest: &[1, 2],
    },
    TiedPlan {
        label: "two equal, 2 and 4, and 1 but for rounding",
        sizes: (5, 3),
        records: Records::Doubled(&[
            (1, 0, 3),
            (1, 1, 3),
            (1, 2, 4),
            (2, 0, 1),
            (2, 1, 4),
            (2, 2, 3),
            (3, 0, 4),
            (3, 1, 2),
            (3, 1, 4),
            (3, 2, 3),
        ]),
        largest: &[2, 4],
    },
    TiedPlan {
        label: "three equal, 0, 1 and 2",
        sizes: (4, 4),
        records: Records::Doubled(&[(1, 0, 1), (3, 0, 3), (3, 2, 3), (4, 1, 2)]),
        largest: &[0, 1, 2],
    },
    TiedPlan {
        label: "three equal, 1, 2 and 3",
        sizes: (4, 4),
        records: Records::Doubled(&[(2, 1, 3), (3, 0, 1), (3, 0, 2), (4, 2, 3)]),
        largest: &[1, 2, 3],
    },
    TiedPlan {
        label: "three equal, 2, 3 and 4, smaller equal ones before",
        sizes: (5, 3),
        records: Records::Doubled(&[
            (1, 0, 2),
            (1, 0, 3),
            (1, 1, 2),
            (2, 0, 3),
            (2, 1, 3),
            (2, 3, 4),
            (3, 0, 4),
            (3, 2, 4),
        ]),
        largest: &[2, 3, 4],
    },
    TiedPlan {
        label: "all four equal",
        sizes: (4, 2),
        records: Records::Doubled(&[(1, 0, 2), (1, 1, 3), (2, 0, 3), (2, 1, 2)]),
        largest: &[0, 1, 2, 3],
    },
    TiedPlan {
        label: "all five equal",
        sizes: (5, 2),
        records: Records::Doubled(&[
            (1, 0, 2),
            (1, 1, 3),
            (1, 3, 4),
            (2, 0, 4),
            (2, 1, 2),
            (2, 1, 3),
        ]),
        largest: &[0, 1, 2, 3, 4],
    },
    TiedPlan {
        label: "1 alone, a smaller one before",
        sizes: (4, 3),
        records: Records::Doubled(&[(1, 0, 1), (2, 1, 3), (3, 0, 1), (3, 0, 2)]),
        largest: &[1],
    },
    TiedPlan {
        label: "one way, all loads 0, one slot",
        sizes: (3, 1),
        records: Records::OneWay(&[(1, 0, 1), (1, 1, 2), (1, 2, 0)]),
        largest: &[0, 1, 2],
    },
    TiedPlan {
        label: "one way, a cycle, all equal",
        sizes: (3, 2),
        records: Records::OneWay(&[
            (1, 0, 1),
            (1, 1, 2),
            (1, 2, 0),
            (2, 0, 1),
            (2, 1, 2),
            (2, 2, 0),
        ]),
        largest: &[0, 1, 2],
    },
    TiedPlan {
        label: "one way, two equal, 0 and 3",
        sizes: (4, 2),
        records: Records::OneWay(&[(1, 1, 0), (1, 2, 3), (2, 0, 2), (2, 3, 1)]),
        largest: &[0, 3],
    },
    TiedPlan {
        label: "one way, three equal, 1, 2 and 3, by shares",
        sizes: (5, 2),
        records: Records::OneWay(&[
            (1, 0, 1),
            (1, 0, 2),
            (1, 0, 3),
            (2, 1, 4),
            (2, 2, 4),
            (2, 3, 4),
        ]),
        largest: &[1, 2, 3],
    },
    TiedPlan {
        label: "one way, two equal, 1 and 2, falling numbers",
        sizes: (4, 3),
        records: Records::OneWay(&[(1, 3, 2), (2, 2, 1), (3, 1, 0)]),
        largest: &[1, 2],
    },
    TiedPlan {
        label: "one way, 2 alone, a smaller one before",
        sizes: (4, 3),
        records: Records::OneWay(&[(1, 0, 1), (2, 1, 2), (3, 2, 0), (3, 2, 3)]),
        largest: &[2],
    },
];

/// Loads and busiest of each.
pub fn cases() -> Vec<Case> {
    let calls = |tied: &TiedPlan| {
        let plan = LabelledPlan::of_records(tied.label, tied.sizes, &tied.records.all());
        [plan.loads(), plan.busiest()].map(|case| case.stating(0))
    };
    TIED_PLANS.iter().flat_map(calls).collect()
}
