//! Generated traces.

use crate::pair_cases::LabelledPlan;
use crate::plan::Ends;
use crate::plans::Owned;
use crate::random::Random;
use crate::way_cases::{mixed, other_keepings, other_turnarounds, Case};

/// Contents of a buffer: a path of the list, a path with one entry changed, or any numbers.
pub fn contents(random: &mut Random, list: &[Vec<u16>], length: usize) -> Vec<u16> {
    let mut buffer: Vec<u16> = (0..length).map(|_| random.below(9) as u16).collect();
    if !list.is_empty() && random.below(3) > 0 {
        let path = &list[random.below(list.len())];
        buffer[..path.len()].copy_from_slice(path);
        if random.below(2) == 0 {
            buffer[random.below(path.len())] = random.below(65536) as u16;
        }
    }
    buffer
}

/// A trace on one pair: calls, refused calls, some with another g or h, and writes behind the pair's hops.
pub fn random_trace(random: &mut Random, owned: &Owned, (source, destination): Ends) -> Case {
    let sizes = (owned.stations as u16, owned.slots as u16);
    let plan = LabelledPlan::new("", sizes, owned.bytes.clone());
    let plan = plan.turning(owned.turnaround as u16);
    let plan = plan.keeping_for(owned.keeping as u16);
    let case = Case::on_plan(&plan, (source as u16, destination as u16));
    let case = mixed(random, case, 30);
    let case = other_turnarounds(random, case);
    other_keepings(random, case)
}
