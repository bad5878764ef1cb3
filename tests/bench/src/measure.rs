//! Times of two sides, taken in turn.

use std::convert::Infallible;
use std::time::Duration;

use lister::plan::Ends;

use crate::clock::thread_time;
use crate::plans::Plan;
use crate::question::{ask, compare, Lent, Question};
use crate::side::{LIBRARY, RUST};

/// How long to measure: at least so many runs of each side, and for at least so long.
#[derive(Clone, Copy, Debug)]
pub struct Effort {
    pub runs: usize,
    pub time: Duration,
}

/// The effort for the tables of docs/PERFORMANCE.md.
pub const WHOLE: Effort = Effort {
    runs: 11,
    time: Duration::from_millis(500),
};

/// The median times of two sides.
#[derive(Clone, Copy, Debug)]
pub struct Times {
    pub sides: [Duration; 2],
}

impl Times {
    /// The first side's time by that of the second.
    pub fn ratio(&self) -> f64 {
        let [first, second] = self.sides.map(|time| time.as_secs_f64());
        first / second
    }
}

fn median(mut times: Vec<Duration>) -> Duration {
    times.sort_unstable();
    times[times.len() / 2]
}

/// Times two sides in turn; each goes first in every other round.
pub fn in_turn<E>(
    effort: Effort,
    mut time: impl FnMut(usize) -> Result<Duration, E>,
) -> Result<Times, E> {
    let mut taken = [Vec::new(), Vec::new()];
    let mut total = Duration::ZERO;
    let mut rounds = 0;
    while rounds < effort.runs || total < effort.time {
        for side in [rounds % 2, 1 - rounds % 2] {
            let time = time(side)?;
            total += time;
            taken[side].push(time);
        }
        rounds += 1;
    }
    Ok(Times {
        sides: taken.map(median),
    })
}

/// Compares the results, then times the library in turn on two plans of equal sizes, for each call.
pub fn measure_plans(plans: [&Plan; 2], question: Question, effort: Effort) -> Times {
    for plan in plans {
        compare(plan, question);
    }
    let mut lent = Lent::new(plans[0], question);
    let Ok(times) = in_turn(effort, |side| {
        let start = thread_time();
        let calls = ask(&LIBRARY, plans[side], question, &mut lent);
        Ok::<Duration, Infallible>((thread_time() - start) / calls)
    });
    times
}

/// Compares the results, then times the library and Rust in turn on the same lent memory.
pub fn measure(plan: &Plan, question: Question, effort: Effort) -> Times {
    compare(plan, question);
    let mut lent = Lent::new(plan, question);
    let Ok(times) = in_turn(effort, |side| {
        let start = thread_time();
        ask(&[LIBRARY, RUST][side], plan, question, &mut lent);
        Ok::<Duration, Infallible>(thread_time() - start)
    });
    times
}

/// Compares the results, then times the library's verdict on a whole listing and the listing itself in turn.
pub fn measure_verdict(plan: &Plan, ends: Ends, effort: Effort) -> Times {
    let questions = [Question::Verdict(ends), Question::Listing(ends)];
    for question in questions {
        compare(plan, question);
    }
    let mut lent = Lent::new(plan, questions[0]);
    let Ok(times) = in_turn(effort, |asked| {
        let start = thread_time();
        ask(&LIBRARY, plan, questions[asked], &mut lent);
        Ok::<Duration, Infallible>(thread_time() - start)
    });
    times
}
