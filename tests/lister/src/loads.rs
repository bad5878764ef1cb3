//! Operations 5 and 6, loads and busiest, and document 02's partial loads (C-18).

use crate::answer::Answer;
use crate::causes::known_sources;
use crate::lent::{clear, scratch_length};
use crate::means::Means;
use crate::plan::{read, Plan, PlanInput};

/// The pairs and the load of one station.
#[derive(Clone, Copy, Debug, Default, PartialEq, Eq)]
pub struct Load {
    /// The ordered pairs with this station interior to some shortest walk.
    pub pairs: u64,
    /// The sum of the shares over these pairs, in units of 1/2^32.
    pub load: u64,
}

/// A share: the whole part of 2^32 × through ÷ count.
pub fn share(through: u64, count: u64) -> u64 {
    ((u128::from(through) << 32) / u128::from(count)) as u64
}

/// The lowest-numbered station whose load no other exceeds.
fn lowest_of_the_largest(loads: &[Load]) -> usize {
    let exceeded = |station: &usize| loads.iter().any(|other| other.load > loads[*station].load);
    let largest = (0..loads.len()).find(|station| !exceeded(station));
    largest.expect("an accepted plan has a station")
}

impl Means {
    /// Pairs and load of every station of an accepted plan over the ordered pairs whose source is below a
    /// number, or cause 9 of such a source.
    pub fn loads_from(self, plan: &Plan, sources: usize) -> Answer<Vec<Load>> {
        let mut loads = vec![Load::default(); plan.stations];
        let mut pairs_from = self.pairs_from(plan);
        for source in 0..sources {
            let others = (0..plan.stations).filter(|station| *station != source);
            let others: Vec<usize> = others.collect();
            for paired in pairs_from(source, &others)? {
                for (entry, through) in loads.iter_mut().zip(paired.through) {
                    if through > 0 {
                        entry.pairs += 1;
                        entry.load += share(through, paired.values.count);
                    }
                }
            }
        }
        Ok(loads)
    }

    /// Partial loads: each station's pairs and load in the two lent tables, over the ordered pairs whose
    /// source is below k.
    pub fn partial_loads(
        self,
        input: PlanInput,
        sources: usize,
        pairs: &mut [u64],
        loads: &mut [u64],
        scratch: &mut [u64],
    ) -> Answer<()> {
        let plan = read(input)?;
        known_sources(plan.stations, sources)?;
        let (stations, named) = (plan.stations, scratch_length(plan.stations, plan.slots));
        let tables = [
            (&mut *pairs, stations),
            (&mut *loads, stations),
            (scratch, named),
        ];
        clear(&mut { tables })?;
        for (station, entry) in self.loads_from(&plan, sources)?.iter().enumerate() {
            pairs[station] = entry.pairs;
            loads[station] = entry.load;
        }
        Ok(())
    }

    /// Loads: partial loads with every station a source.
    pub fn loads(
        self,
        input: PlanInput,
        pairs: &mut [u64],
        loads: &mut [u64],
        scratch: &mut [u64],
    ) -> Answer<()> {
        self.partial_loads(input, input.stations, pairs, loads, scratch)
    }

    /// Busiest: the lowest-numbered of the stations with the largest load.
    pub fn busiest(self, input: PlanInput, scratch: &mut [u64]) -> Answer<usize> {
        let plan = read(input)?;
        clear(&mut [(scratch, scratch_length(plan.stations, plan.slots))])?;
        let loads = self.loads_from(&plan, plan.stations)?;
        Ok(lowest_of_the_largest(&loads))
    }
}
