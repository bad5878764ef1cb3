//! Every position of plan A, of plans by hand, with one direction alone and with turnarounds; plans without contacts; and
//! positions far above the number of records.

use super::Case;
use crate::cases::{Record, PLAN_A};
use crate::pair_cases::LabelledPlan;
use crate::partial_cases::plans_by_hand;
use crate::stale::{plan_a, with_terms, DETOUR};

/// A plan, and what comes of striking out some of its contacts.
#[derive(Clone, Copy, Debug)]
pub struct StruckPlan {
    pub label: &'static str,
    /// n and T
    pub sizes: (u16, u16),
    /// g and h
    pub terms: (u16, u16),
    pub records: &'static [Record],
    pub struck: &'static [StruckContact],
}

/// A position, how many pairs use the contact, and each station's change of load.
#[derive(Clone, Copy, Debug)]
pub struct StruckContact {
    pub position: u64,
    pub pairs: u64,
    pub changes: &'static [i64],
}

impl StruckPlan {
    pub fn labelled(&self) -> LabelledPlan {
        with_terms(self.label, self.sizes, self.records, self.terms)
    }
}

/// The share of a station in every walk of a pair.
const WHOLE: i64 = 1 << 32;

const fn struck(position: u64, pairs: u64, changes: &'static [i64]) -> StruckContact {
    StruckContact {
        position,
        pairs,
        changes,
    }
}

/// A plan of n stations and T slots with g = 1, of units that keep every reading.
const fn kept(
    label: &'static str,
    sizes: (u16, u16),
    records: &'static [Record],
    struck: &'static [StruckContact],
) -> StruckPlan {
    StruckPlan {
        label,
        sizes,
        terms: (1, 255),
        records,
        struck,
    }
}

/// The plans. A contact is used by the pair of its sender and its hearer at least.
pub const STRUCK_PLANS: [StruckPlan; 11] = [
    // 5: the three walks from 0 to 3 and to 4 become two. 9: 1 has no other way to 2, 3 another contact. 10: none but
    // it leads to 4
    kept(
        "plan A",
        (5, 4),
        &PLAN_A,
        &[
            struck(5, 4, &[0, 1_431_655_766, -1_431_655_764, 0, 0]),
            struck(9, 2, &[0, 0, 0, -WHOLE, 0]),
            struck(10, 4, &[0, -1_431_655_765, -2_863_311_530, -3 * WHOLE, 0]),
        ],
    ),
    kept(
        "the only record",
        (2, 1),
        &[(1, 0, 1)],
        &[struck(0, 1, &[0, 0])],
    ),
    kept(
        "a short cut, 1 carries its pair",
        (3, 3),
        &[(1, 0, 1), (2, 1, 2), (3, 0, 2)],
        &[
            struck(0, 1, &[0, 0, 0]),
            struck(1, 1, &[0, 0, 0]),
            struck(2, 1, &[0, WHOLE, 0]),
        ],
    ),
    kept(
        "a short cut of two pairs, as far up as can be",
        (4, 4),
        &[(1, 0, 1), (2, 1, 2), (3, 0, 2), (4, 2, 3)],
        &[
            struck(2, 2, &[0, 2 * WHOLE, 0, 0]),
            struck(3, 3, &[0, 0, -2 * WHOLE, 0]),
        ],
    ),
    kept(
        "the only records of the first and the last slot",
        (4, 4),
        &[(1, 0, 1), (2, 1, 2), (4, 2, 3)],
        &[
            struck(0, 3, &[0, -2 * WHOLE, -WHOLE, 0]),
            struck(2, 3, &[0, -WHOLE, -2 * WHOLE, 0]),
        ],
    ),
    StruckPlan {
        label: "the last slot is too late",
        sizes: (4, 4),
        terms: (1, 1),
        records: &[(1, 0, 1), (2, 1, 2), (4, 2, 3)],
        struck: &[
            struck(0, 2, &[0, -WHOLE, 0, 0]),
            struck(2, 1, &[0, 0, 0, 0]),
        ],
    },
    kept(
        "one of two walks, by 1 and by 2",
        (4, 3),
        &[(1, 0, 1), (1, 0, 2), (2, 1, 3), (3, 2, 3)],
        &[
            struck(0, 2, &[0, -WHOLE / 2, WHOLE / 2, 0]),
            struck(3, 2, &[0, WHOLE / 2, -WHOLE / 2, 0]),
        ],
    ),
    kept(
        "1 and 4 fall, 2 and 3 rise",
        (6, 4),
        &[
            (1, 0, 1),
            (1, 0, 2),
            (2, 1, 4),
            (2, 2, 3),
            (3, 3, 4),
            (4, 4, 5),
        ],
        &[struck(
            2,
            4,
            &[0, -2 * WHOLE, 2 * WHOLE, 2 * WHOLE, -WHOLE, 0],
        )],
    ),
    StruckPlan {
        label: "1 in time with g 2 once",
        sizes: (3, 3),
        terms: (2, 255),
        records: &[(1, 0, 1), (2, 1, 2), (3, 1, 2)],
        struck: &[struck(1, 1, &[0, 0, 0]), struck(2, 2, &[0, -WHOLE, 0])],
    },
    // the only walk from 0 to 3 is 0, 1, 2, 1, 3
    StruckPlan {
        label: "twice at 1",
        sizes: (4, 4),
        terms: (1, 1),
        records: &DETOUR,
        struck: &[
            struck(0, 3, &[0, -2 * WHOLE, -WHOLE, 0]),
            struck(1, 3, &[0, -2 * WHOLE, -WHOLE, 0]),
            struck(2, 3, &[0, -2 * WHOLE, -WHOLE, 0]),
            struck(3, 3, &[0, -2 * WHOLE, -WHOLE, 0]),
        ],
    },
    kept(
        "once at 1",
        (4, 4),
        &DETOUR,
        &[
            struck(2, 2, &[0, -WHOLE, 0, 0]),
            struck(3, 3, &[0, -2 * WHOLE, 0, 0]),
        ],
    ),
];

/// Positions above the 12 records of plan A. Some are below 12 in their low bits alone, or begin there when multiplied
/// by the 6 bytes of a record.
pub const FAR: [u64; 13] = [
    13,
    255,
    256,
    256 + 5,
    65535,
    65536,
    65536 + 5,
    1 << 32,
    (1 << 32) + 10,
    (1 << 48) + 1,
    1 << 63,
    (1 << 63) + 5,
    u64::MAX,
];

pub fn cases() -> Vec<Case> {
    let mut plans: Vec<LabelledPlan> = STRUCK_PLANS.iter().map(StruckPlan::labelled).collect();
    plans.extend([2, 3].map(|turnaround| plan_a("plan A", (turnaround, 255))));
    plans.extend(plans_by_hand());
    let mut cases: Vec<Case> = plans.iter().flat_map(LabelledPlan::every_struck).collect();
    let exact = plan_a("plan A, exactly long enough", (1, 255));
    cases.extend((0..12).map(|position| exact.struck(position).stating(0)));
    let far = plan_a("17 for plan A", (1, 255));
    cases.extend(FAR.map(|position| far.longer_struck(position).stating(17)));
    let empty = LabelledPlan::of_records("17 for the empty plan", (1, 1), &[]);
    cases.extend([1, 65535, u64::MAX].map(|position| empty.longer_struck(position).stating(17)));
    cases
}
