//! Small plans drawn, on tables drawn near what fits.

use super::{Case, BEHIND};
use crate::band::{Taking, BAND_SLOTS};
use crate::band_runs::drawn_table;
use crate::pair_cases::LabelledPlan;
use crate::plans::random_plan;
use crate::random::Random;

/// The seed; each label names it.
const SEED: u64 = 22;
/// The number of cases.
const CASES: usize = 24;

pub fn cases() -> Vec<Case> {
    let mut random = Random::new(SEED);
    let case = |index: usize| {
        let owned = random_plan(&mut random);
        let sizes = (owned.stations as u16, owned.slots as u16);
        let label = format!("drawn {index}, seed {SEED}");
        let plan = LabelledPlan::new(&label, sizes, owned.bytes);
        let taking = match index % 2 {
            0 => Taking::In(random.between(1, 40) as u16),
            _ => Taking::Out,
        };
        let table = drawn_table(&mut random, taking, &plan.bytes, BAND_SLOTS);
        plan.taken(taking, [&table[..], &BEHIND].concat())
    };
    (0..CASES).map(case).collect()
}
