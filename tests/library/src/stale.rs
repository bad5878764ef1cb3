//! Tiny plans with small g and h, and plans whose shortest walks call twice or three times at a station.

use lister::pair_cases::LabelledPlan;
use lister::plans::{all_doubled_plans, all_plans, Owned};
use lister::random::Random;
use lister::stale::{calls_twice, detours, small_terms, STALE_PLANS};
use lister::turned::two_links;

use crate::compare::{Comparison, Difference};
use crate::lists;
use crate::tiny::{every_buffer, every_call, every_pair, every_set};

/// Which of the small g and h, g up to 3 and h up to 4, a plan has.
#[derive(Clone, Copy, Debug, PartialEq, Eq)]
pub enum Terms {
    /// One of them, in turn with the plans.
    InTurn,
    /// Every one.
    Every,
}

impl Terms {
    /// The plans with these g and h.
    pub fn of(self, plans: Vec<Owned>) -> impl Iterator<Item = Owned> {
        let all = small_terms();
        let chosen = move |index: usize| match self {
            Terms::InTurn => vec![all[index % all.len()]],
            Terms::Every => all.clone(),
        };
        let with_terms = move |(index, owned): (usize, Owned)| {
            let terms = chosen(index).into_iter();
            terms.map(move |(turnaround, keeping)| {
                let owned = owned.clone().turning(turnaround);
                owned.keeping_for(keeping)
            })
        };
        plans.into_iter().enumerate().flat_map(with_terms)
    }

    /// Every plan, or one of so many.
    fn some(self, plans: Vec<Owned>, step: usize) -> Vec<Owned> {
        match self {
            Terms::InTurn => plans.into_iter().step_by(step).collect(),
            Terms::Every => plans,
        }
    }
}

/// Compares the plans: those of tiny sizes and of a detour for every pair; with every set and every list near a
/// complete one those by hand, and those of a detour in which a walk calls twice at a station.
pub fn compare(
    comparison: &mut Comparison,
    random: &mut Random,
    terms: Terms,
) -> Result<(), Difference> {
    let two_links: Vec<Owned> = two_links().iter().map(LabelledPlan::owned).collect();
    let mut plans = [
        all_plans(2, 4),
        two_links,
        terms.some(detours(), 11),
        terms.some(all_plans(3, 2), 11),
        terms.some(all_doubled_plans(3, 3), 3),
    ]
    .concat();
    if terms == Terms::Every {
        plans.extend(all_plans(2, 5));
        plans.extend(all_plans(3, 3));
        plans.extend(all_doubled_plans(3, 4));
    }
    for owned in terms.of(plans) {
        every_pair(comparison, random, &owned)?;
    }
    let twice: Vec<Owned> = Terms::Every.of(detours()).filter(calls_twice).collect();
    for owned in terms.some(twice, 7) {
        every_pair(comparison, random, &owned)?;
        every_set(comparison, random, &owned)?;
        lists::every_near(comparison, random, &owned)?;
    }
    for plan in STALE_PLANS {
        let owned = plan.owned();
        every_call(comparison, random, &owned)?;
        every_set(comparison, random, &owned)?;
        lists::every_near(comparison, random, &owned)?;
        if plan.records.len() == 4 && owned.slots == 4 {
            every_buffer(comparison, random, &owned)?;
        }
    }
    Ok(())
}
