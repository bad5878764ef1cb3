//! Small plans in which a contact has one direction alone, each with its shortest paths from the first
//! station to the last and back.

use crate::cases::Record;
use crate::pair_cases::LabelledPlan;
use crate::plans::Owned;

/// Walks by their positions.
pub type WalkList = &'static [&'static [u16]];

/// A plan, and two lists of shortest paths.
#[derive(Clone, Copy, Debug)]
pub struct OneWayPlan {
    pub label: &'static str,
    /// n and T
    pub sizes: (u16, u16),
    pub records: &'static [Record],
    /// From the first station to the last.
    pub there: WalkList,
    /// From the last station to the first.
    pub back: WalkList,
}

impl OneWayPlan {
    pub fn owned(&self) -> Owned {
        let (stations, slots) = self.sizes;
        Owned::new(stations.into(), slots.into(), self.records)
    }

    pub fn labelled(&self) -> LabelledPlan {
        LabelledPlan::of_records(self.label, self.sizes, self.records)
    }

    /// The last station.
    pub fn last(&self) -> u16 {
        self.sizes.0 - 1
    }
}

/// The plans. Read from hearer to sender all of them have other paths, read both ways most.
pub const ONE_WAY_PLANS: [OneWayPlan; 18] = [
    OneWayPlan {
        label: "one record, the smaller sends",
        sizes: (2, 1),
        records: &[(1, 0, 1)],
        there: &[&[0]],
        back: &[],
    },
    OneWayPlan {
        label: "one record, the larger sends",
        sizes: (2, 1),
        records: &[(1, 1, 0)],
        there: &[],
        back: &[&[0]],
    },
    OneWayPlan {
        label: "both directions in one slot",
        sizes: (2, 1),
        records: &[(1, 0, 1), (1, 1, 0)],
        there: &[&[0]],
        back: &[&[1]],
    },
    OneWayPlan {
        label: "two directions in turn",
        sizes: (2, 3),
        records: &[(1, 0, 1), (2, 1, 0), (3, 0, 1)],
        there: &[&[0], &[2]],
        back: &[&[1]],
    },
    OneWayPlan {
        label: "falling numbers",
        sizes: (4, 3),
        records: &[(1, 3, 2), (2, 2, 1), (3, 1, 0)],
        there: &[],
        back: &[&[0, 1, 2]],
    },
    OneWayPlan {
        label: "a cycle, a slot for each",
        sizes: (4, 4),
        records: &[(1, 0, 1), (2, 1, 2), (3, 2, 3), (4, 3, 0)],
        there: &[&[0, 1, 2]],
        back: &[&[3]],
    },
    OneWayPlan {
        label: "a cycle in every slot",
        sizes: (4, 3),
        records: &[
            (1, 0, 1),
            (1, 1, 2),
            (1, 2, 3),
            (1, 3, 0),
            (2, 0, 1),
            (2, 1, 2),
            (2, 2, 3),
            (2, 3, 0),
            (3, 0, 1),
            (3, 1, 2),
            (3, 2, 3),
            (3, 3, 0),
        ],
        there: &[&[0, 5, 10]],
        back: &[&[3], &[7], &[11]],
    },
    OneWayPlan {
        label: "a falling cycle in every slot",
        sizes: (3, 4),
        records: &[
            (1, 0, 2),
            (1, 1, 0),
            (1, 2, 1),
            (2, 0, 2),
            (2, 1, 0),
            (2, 2, 1),
            (3, 0, 2),
            (3, 1, 0),
            (3, 2, 1),
            (4, 0, 2),
            (4, 1, 0),
            (4, 2, 1),
        ],
        there: &[&[0], &[3], &[6], &[9]],
        back: &[&[2, 4], &[2, 7], &[2, 10], &[5, 7], &[5, 10], &[8, 10]],
    },
    OneWayPlan {
        label: "the first station only sends",
        sizes: (4, 3),
        records: &[
            (1, 0, 1),
            (1, 0, 2),
            (2, 1, 2),
            (2, 2, 1),
            (2, 3, 1),
            (3, 1, 3),
            (3, 2, 3),
            (3, 3, 2),
        ],
        there: &[&[0, 5], &[1, 6]],
        back: &[],
    },
    OneWayPlan {
        label: "the last station only sends",
        sizes: (4, 3),
        records: &[
            (1, 1, 0),
            (1, 3, 1),
            (1, 3, 2),
            (2, 0, 2),
            (2, 1, 2),
            (2, 2, 1),
            (3, 1, 0),
            (3, 2, 0),
        ],
        there: &[],
        back: &[&[1, 6], &[2, 7]],
    },
    OneWayPlan {
        label: "the last station only hears",
        sizes: (4, 3),
        records: &[(1, 0, 1), (1, 1, 0), (2, 1, 2), (3, 1, 3), (3, 2, 3)],
        there: &[&[0, 3]],
        back: &[],
    },
    OneWayPlan {
        label: "an inner station hears all and sends to none",
        sizes: (4, 3),
        records: &[
            (1, 0, 1),
            (1, 0, 2),
            (1, 3, 1),
            (2, 2, 1),
            (2, 2, 3),
            (3, 3, 0),
            (3, 3, 1),
        ],
        there: &[&[1, 4]],
        back: &[&[5]],
    },
    OneWayPlan {
        label: "one hop there, three back",
        sizes: (4, 4),
        records: &[(1, 0, 3), (2, 3, 2), (3, 2, 1), (4, 1, 0)],
        there: &[&[0]],
        back: &[&[1, 2, 3]],
    },
    OneWayPlan {
        label: "one path there, three back",
        sizes: (5, 3),
        records: &[
            (1, 0, 4),
            (2, 4, 1),
            (2, 4, 2),
            (2, 4, 3),
            (3, 1, 0),
            (3, 2, 0),
            (3, 3, 0),
        ],
        there: &[&[0]],
        back: &[&[1, 4], &[2, 5], &[3, 6]],
    },
    OneWayPlan {
        label: "a second path against a record",
        sizes: (4, 2),
        records: &[(1, 0, 1), (1, 0, 2), (2, 1, 3), (2, 3, 2)],
        there: &[&[0, 2]],
        back: &[],
    },
    OneWayPlan {
        label: "a shorter path against a record",
        sizes: (4, 4),
        records: &[(1, 0, 1), (2, 1, 2), (2, 3, 1), (3, 2, 3), (4, 3, 0)],
        there: &[&[0, 1, 3]],
        back: &[&[4]],
    },
    OneWayPlan {
        label: "plan A with one direction",
        sizes: (5, 4),
        records: &[
            (1, 0, 1),
            (1, 0, 2),
            (2, 1, 3),
            (2, 2, 3),
            (3, 2, 3),
            (4, 3, 4),
        ],
        there: &[&[0, 2, 5], &[1, 3, 5], &[1, 4, 5]],
        back: &[],
    },
    OneWayPlan {
        label: "plan A with its numbers falling",
        sizes: (5, 4),
        records: &[
            (1, 4, 2),
            (1, 4, 3),
            (2, 2, 1),
            (2, 3, 1),
            (3, 2, 1),
            (4, 1, 0),
        ],
        there: &[],
        back: &[&[0, 2, 5], &[0, 4, 5], &[1, 3, 5]],
    },
];
