//! Times of partial loads where readings are dropped, beside those where units keep every reading: the library alone,
//! on the largest random plan.

use std::convert::Infallible;
use std::time::Duration;

use lister::plan::KEPT;

use crate::clock::thread_time;
use crate::measure::{in_turn, WHOLE};
use crate::native::plan::work_length;
use crate::plans::{named, Plan};
use crate::tables::{print_head, print_row, timed};

/// The most that a time may be by that with h = 255: of h = 4, of h = 16, and of any h.
const BARS: [(usize, f64); 2] = [(4, 1.5), (16, 15.0)];
const BAR: f64 = 100.0;

/// The h that are timed: T − 1, with which nothing is dropped, and smaller ones.
const KEEPINGS: [usize; 8] = [254, 253, 200, 128, 100, 64, 16, 4];

/// What a call writes, and the work area.
#[derive(Clone, Debug, PartialEq, Eq)]
struct Lent {
    pairs: Vec<u64>,
    loads: Vec<u64>,
    work: Vec<u64>,
}

impl Lent {
    fn new(plan: &Plan) -> Lent {
        let n = plan.stations;
        Lent {
            pairs: vec![0; n],
            loads: vec![0; n],
            work: vec![0; work_length(plan.input())],
        }
    }
}

/// Partial loads of so many sources; a refusal stops the program.
fn ask(plan: &Plan, sources: usize, lent: &mut Lent) {
    let Lent { pairs, loads, work } = lent;
    let number = archive::partial_loads(plan.input(), sources, pairs, loads, work);
    assert_eq!(number, 0, "h {}", plan.keeping);
}

/// What partial loads leaves on memory that is 0.
fn left(plan: &Plan, sources: usize) -> Lent {
    let mut lent = Lent::new(plan);
    ask(plan, sources, &mut lent);
    assert!(lent.work.iter().all(|entry| *entry == 0), "the work area");
    lent
}

/// The most that the time of an h may be by that of h = 255.
fn bar(keeping: usize) -> f64 {
    let own = BARS.iter().find(|(of, _)| *of == keeping);
    own.map_or(BAR, |(_, most)| *most)
}

/// The table of times of so many sources.
pub fn table(sources: usize) -> Result<(), String> {
    let [kept, ..] = named();
    if !(1..=kept.stations).contains(&sources) {
        return Err(format!("1 to {} sources", kept.stations));
    }
    let title = format!("Partial loads of {sources} sources by h, {}", kept.name);
    let columns = ["h", "ms", "with h = 255, ms", "ratio", "at most"];
    print_head(&title, &columns);
    let expected = left(&kept, sources);
    for keeping in KEEPINGS {
        let plan = kept.clone().keeping_for(keeping);
        let drops = plan.slots > keeping + 1;
        let as_kept = left(&plan, sources) == expected;
        assert!(
            drops || as_kept,
            "h {keeping}: other loads than with h {KEPT}"
        );
        let mut lent = Lent::new(&plan);
        let Ok(times) = in_turn(WHOLE, |side| {
            let start = thread_time();
            ask([&plan, &kept][side], sources, &mut lent);
            Ok::<Duration, Infallible>(thread_time() - start)
        });
        let mut cells = vec![keeping.to_string()];
        cells.extend(timed(&times));
        cells.push(bar(keeping).to_string());
        print_row(&cells);
    }
    println!();
    Ok(())
}
