//! Pairs whose counts pass 2^32, are no power of two, and have through counts of many values: a share
//! takes a product of up to 96 bits.

use super::{Case, LabelledPlan};
use crate::random::Random;
use crate::reach_cases::Builder;

/// The seed of the ladders; each label names it.
const SEED: u64 = 5;

/// A ladder from station 0, and its last layer.
#[derive(Clone, Debug)]
pub struct MixedLadder {
    pub label: String,
    pub builder: Builder,
    pub last: Vec<usize>,
}

/// Ladders with layers of 3 and 2 stations in turn; of the contacts between two layers some are
/// missing, but each station of the next layer hears one. In every other ladder it hears and does not
/// send.
pub fn mixed_ladders() -> Vec<MixedLadder> {
    let mut random = Random::new(SEED);
    let ladder = |(layers, one_way): (usize, bool)| {
        let mut builder = Builder::start();
        let mut last = vec![0];
        for slot in 1..=layers {
            let next = builder.layer(2 + slot % 2);
            for station in &next {
                let sure = last[random.below(last.len())];
                let mut heard = last.clone();
                heard.retain(|one| *one == sure || random.below(8) > 0);
                if one_way {
                    builder.hear_all(slot, *station, &heard);
                } else {
                    builder.meet_all(slot, *station, &heard);
                }
            }
            last = next;
        }
        let label = format!("mixed ladder of {layers} layers, seed {SEED}");
        MixedLadder {
            label,
            builder,
            last,
        }
    };
    let ladders = [(31, false), (38, true), (44, false), (51, true)];
    ladders.map(ladder).to_vec()
}

pub fn cases() -> Vec<Case> {
    let mut cases = Vec::new();
    for mixed in mixed_ladders() {
        let plan = LabelledPlan::built(&mixed.label, &mixed.builder);
        for end in mixed.last {
            cases.push(plan.pair(0, end as u16));
        }
        cases.extend([plan.pair(1, 60), plan.loads(), plan.busiest()]);
    }
    cases
}
