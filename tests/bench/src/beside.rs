//! Times of a further call beside those of loads on the same plan, the library's both.

use std::convert::Infallible;
use std::time::Duration;

use lister::drawing::drawn_length;

use crate::clock::thread_time;
use crate::measure::{in_turn, Effort, Times};
use crate::native::plan::work_length;
use crate::plans::Plan;
use crate::side::{LoadsOf, LIBRARY};

/// What the calls write, and the work area.
pub struct Lent {
    pub pairs: Vec<u64>,
    pub loads: Vec<u64>,
    pub changes: Vec<i64>,
    pub records: Vec<u8>,
    pub work: Vec<u64>,
}

impl Lent {
    /// Memory that holds something everywhere.
    pub fn marked(plan: &Plan) -> Lent {
        let n = plan.stations;
        Lent {
            pairs: vec![4321; n],
            loads: vec![4321; n],
            changes: vec![-4321; n],
            records: vec![43; drawn_length(n)],
            work: vec![4321; work_length(plan.input())],
        }
    }

    /// Stops the program where the work area is not cleared.
    pub fn assert_cleared(&self, plan: &Plan) {
        let cleared = self.work.iter().all(|entry| *entry == 0);
        assert!(cleared, "{}: the work area is not cleared", plan.name);
    }
}

/// Loads of one side; a refusal stops the program.
pub fn loads(of: LoadsOf, plan: &Plan, lent: &mut Lent) {
    let number = of(
        plan.input(),
        &mut lent.pairs,
        &mut lent.loads,
        &mut lent.work,
    );
    assert_eq!(number, 0, "{}", plan.name);
}

/// The times of a call and of loads.
pub fn times(effort: Effort, plan: &Plan, call: impl Fn(&mut Lent)) -> Times {
    let mut lent = Lent::marked(plan);
    let Ok(times) = in_turn(effort, |asked| {
        let start = thread_time();
        match asked {
            0 => call(&mut lent),
            _ => loads(LIBRARY.loads, plan, &mut lent),
        }
        Ok::<Duration, Infallible>(thread_time() - start)
    });
    times
}
