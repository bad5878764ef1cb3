//! The pairs that use a contact by numbers of walks. This is no plain lister: it lists no walk.
//!
//! The walks of the plan without a contact are those that do not use it. So a pair has a shortest walk that uses the
//! contact exactly if without it the pair has more hops, or as many and fewer walks, or no walk. The module serves
//! plans with too many walks to be listed; the tests compare it with the plain lister on small plans.

use crate::numbers::{Appearances, Walks};
use crate::plan::Plan;

/// How many ordered pairs have a shortest walk that uses the contact at a position. No source has too many walks, with
/// the contact or without it.
pub fn pairs_using(plan: &Plan, position: usize) -> u64 {
    let plans = [plan, &plan.without(position)].map(Appearances::new);
    let from = |source: usize| {
        let walks = plans.each_ref();
        let walks = walks.map(|appearances| Walks::from_source(appearances, source));
        let loses = |destination: &usize| {
            let shortest = walks.each_ref().map(|walks| walks.to_station(*destination));
            match shortest {
                [Some((hops, count)), Some((others, left))] => others > hops || left < count,
                [with, _] => with.is_some(),
            }
        };
        let others = (0..plan.stations).filter(|station| *station != source);
        others.filter(loses).count() as u64
    };
    (0..plan.stations).map(from).sum()
}
