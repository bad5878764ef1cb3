//! Times of struck out at the position in the middle beside those of loads on the same plan, the library's both.

use crate::beside::{loads, times, Lent};
use crate::measure::Effort;
use crate::native::pass::NO_WALK;
use crate::plans::Plan;
use crate::side::RUST;
use crate::tables::{print_head, print_row, timed};

/// Struck out at a position: the number of pairs; a refusal stops the program.
fn struck_out(plan: &Plan, position: usize, lent: &mut Lent) -> u64 {
    let mut using = 0;
    let (changes, work) = (&mut lent.changes, &mut lent.work);
    let number = archive::struck_out(plan.input(), position, &mut using, changes, work);
    assert_eq!(number, 0, "{}", plan.name);
    using
}

/// The pairs with other hops or another count without the record, by the Rust side.
fn pairs_using(plan: &Plan, without: &Plan) -> u64 {
    let from = |source: usize| {
        let entries = [plan, without].map(|plan| plan.entries_from(source));
        let differs =
            |at: &usize| entries[0][*at].0 != NO_WALK && entries[0][*at] != entries[1][*at];
        (0..plan.stations).filter(differs).count() as u64
    };
    (0..plan.stations).map(from).sum()
}

/// Compares the answer with the Rust side's, and stops the program where it differs; gives the number of pairs.
fn compare(plan: &Plan, position: usize) -> u64 {
    let mut lent = Lent::marked(plan);
    let using = struck_out(plan, position, &mut lent);
    lent.assert_cleared(plan);
    let without = plan.without(position);
    assert_eq!(using, pairs_using(plan, &without), "{}", plan.name);
    let [with, without] = [plan, &without].map(|plan| {
        let mut lent = Lent::marked(plan);
        loads(RUST.loads, plan, &mut lent);
        lent.loads
    });
    let changes = without.iter().zip(&with);
    let changes = changes.map(|(without, with)| *without as i64 - *with as i64);
    assert!(
        changes.eq(lent.changes),
        "{}: the changes differ",
        plan.name
    );
    using
}

/// The table of some plans.
pub fn table(effort: Effort, plans: &[Plan]) {
    let columns = [
        "plan",
        "position",
        "pairs",
        "struck out, ms",
        "loads, ms",
        "ratio",
    ];
    print_head("Struck out", &columns);
    for plan in plans {
        let position = plan.records() / 2;
        let using = compare(plan, position);
        let times = times(effort, plan, |lent| {
            struck_out(plan, position, lent);
        });
        let mut cells = vec![plan.name.clone(), position.to_string(), using.to_string()];
        cells.extend(timed(&times));
        print_row(&cells);
    }
    println!();
}
