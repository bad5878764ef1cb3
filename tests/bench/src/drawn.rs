//! Times of drawn loads beside those of loads on the same plan, the library's both.

use lister::drawing::Figures;

use crate::beside::{loads, times, Lent};
use crate::measure::Effort;
use crate::plans::Plan;
use crate::side::RUST;
use crate::tables::{print_head, print_row, timed};

/// Drawn loads; a refusal stops the program.
fn drawn_loads(plan: &Plan, lent: &mut Lent) {
    let number = archive::drawn_loads(
        plan.input(),
        &mut lent.pairs,
        &mut lent.loads,
        &mut lent.records,
        &mut lent.work,
    );
    assert_eq!(number, 0, "{}", plan.name);
}

/// Compares the tables with the Rust side's and the records with those of the tables, and stops the program where they
/// differ.
fn compare(plan: &Plan) {
    let [mut lent, mut rust] = [(); 2].map(|()| Lent::marked(plan));
    drawn_loads(plan, &mut lent);
    lent.assert_cleared(plan);
    loads(RUST.loads, plan, &mut rust);
    assert!(lent.pairs == rust.pairs, "{}: the pairs differ", plan.name);
    assert!(lent.loads == rust.loads, "{}: the loads differ", plan.name);
    let record = |station: usize| {
        let figures = Figures {
            station: station as u16,
            load: rust.loads[station],
            pairs: rust.pairs[station],
        };
        figures.record()
    };
    let records = (0..plan.stations).flat_map(record);
    assert!(
        records.eq(lent.records),
        "{}: the records differ",
        plan.name
    );
}

/// The table of some plans.
pub fn table(effort: Effort, plans: &[Plan]) {
    let columns = ["plan", "bytes", "drawn loads, ms", "loads, ms", "ratio"];
    print_head("Drawn loads", &columns);
    for plan in plans {
        compare(plan);
        let times = times(effort, plan, |lent| drawn_loads(plan, lent));
        let bytes = Lent::marked(plan).records.len();
        let mut cells = vec![plan.name.clone(), bytes.to_string()];
        cells.extend(timed(&times));
        print_row(&cells);
    }
    println!();
}
