//! Records that are too short: alone, with other parts that are, behind each other number and before 9; and records of every
//! length near the named one. The other refusals are those of loads.

use super::{Case, RECORDS};
use crate::drawing::DRAWN_BYTES;
use crate::pair_cases::{near_lengths, LabelledPlan};
use crate::reach_cases::sent_ladder;
use crate::stale::{plan_a, WRONG_TERMS, WRONG_TURNAROUND_TERMS};

pub fn cases() -> Vec<Case> {
    [
        plan_before_lengths(),
        terms_before_lengths(),
        lengths(),
        before_too_many(),
    ]
    .concat()
}

/// The parts that are too short: the records in turn with each other, and with all.
const SHORT: [&[usize]; 5] = [&[2], &[0, 2], &[1, 2], &[2, 3], &[0, 1, 2, 3]];

/// Causes 1 to 5 with 8, with 12 and 8, and with 14 and 8.
fn plan_before_lengths() -> Vec<Case> {
    let mut cases = Vec::new();
    for cause in 1..=5 {
        for (before, terms) in [
            ("8", (1, 255)),
            ("12 and 8", (17, 255)),
            ("14 and 8", (2, 1)),
        ] {
            for short in SHORT {
                let plan = plan_a(&format!("{cause} before {before} of {short:?}"), terms);
                cases.push(plan.drawn().shorter(short).faulty(cause));
            }
        }
    }
    cases
}

/// 12 and 14 with 8; the same with g and h in their limits is 8.
fn terms_before_lengths() -> Vec<Case> {
    let mut cases = Vec::new();
    let mut push = |terms: (u16, u16), number: u8| {
        for short in SHORT {
            let plan = plan_a(&format!("{number} for short {short:?}"), terms);
            cases.push(plan.drawn().shorter(short).stating(number));
        }
    };
    for terms in WRONG_TURNAROUND_TERMS {
        push(terms, 12);
    }
    for terms in WRONG_TERMS {
        push(terms, 14);
    }
    for terms in [(1, 255), (1, 1), (16, 16), (16, 255)] {
        push(terms, 8);
    }
    cases
}

/// Lengths of plan A's records: near the named one, and of records without a station, without a double, without both, and
/// of one record.
fn lengths() -> Vec<Case> {
    let on = |label: &str| plan_a(label, (1, 255)).drawn();
    let named = 5 * DRAWN_BYTES;
    let mut cases = Vec::new();
    for (label, longer, length, number) in near_lengths(named) {
        let case = on(&format!("{label} records")).longer([longer; 4]);
        let case = case.with_length(RECORDS, length).marked(502);
        cases.push(case.stating(number));
    }
    for length in [1, 5, 10, DRAWN_BYTES, 50, 72, 80, 85, 88] {
        let case = on(&format!("8 for {length} bytes of records"));
        cases.push(case.with_length(RECORDS, length).stating(8));
    }
    for length in [named, named + 1, named + 17, named + 18, 4700] {
        let case = on(&format!("{length} bytes of records"));
        cases.push(case.with_length(RECORDS, length).stating(0));
    }
    cases
}

/// A ladder of 65 layers, which has 9: 12, 14 and 8 before it.
fn before_too_many() -> Vec<Case> {
    let plan = |label: &str| LabelledPlan::built(label, &sent_ladder(65, 2));
    let mut cases = Vec::new();
    for short in SHORT {
        let case = plan(&format!("8 of {short:?} before 9")).drawn();
        cases.push(case.shorter(short).stating(8));
        let case = plan(&format!("12 before 8 of {short:?} and 9")).drawn();
        cases.push(case.shorter(short).turning(17).stating(12));
        let case = plan(&format!("14 before 8 of {short:?} and 9")).drawn();
        cases.push(case.shorter(short).keeping_for(0).stating(14));
    }
    cases
}
