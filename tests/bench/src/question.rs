//! What is asked of a plan, asked of one side for its time, and of both for equal results.

use lister::operation::LAST;
use lister::plan::{Ends, KEPT};
use lister::ways::Way;

use crate::native::plan::work_length;
use crate::plans::Plan;
use crate::side::{Side, LIBRARY, RUST};

/// A question about a plan.
#[derive(Clone, Copy, Debug)]
pub enum Question {
    Loads,
    /// The pair of two stations.
    Pair(Ends),
    /// All paths of a pair, by first way and then next way until it answers last.
    Listing(Ends),
    /// The verdict on a whole listing of a pair.
    Verdict(Ends),
}

impl Question {
    /// The pair that is asked about; 0 and 0 where all are.
    pub fn ends(self) -> Ends {
        match self {
            Question::Loads => (0, 0),
            Question::Pair(ends) | Question::Listing(ends) | Question::Verdict(ends) => ends,
        }
    }
}

/// The names of the questions that are also asked of other archives and with other turnarounds.
pub const QUESTIONS: [&str; 3] = ["loads", "pair", "listing"];

/// The most paths of a listing.
const MOST_PATHS: u64 = 1024;

/// The pair that is timed on a plan, with its number of paths.
pub fn timed_pair(plan: &Plan) -> (Ends, u64) {
    plan.pair_with_paths(MOST_PATHS)
}

/// The question of a name about a plan.
pub fn question_of(name: &str, plan: &Plan) -> Result<Question, String> {
    let ends = || timed_pair(plan).0;
    match name {
        "loads" => Ok(Question::Loads),
        "pair" => Ok(Question::Pair(ends())),
        "listing" => Ok(Question::Listing(ends())),
        "verdict" => Ok(Question::Verdict(ends())),
        _ => Err(format!("no question {name}")),
    }
}

/// The positions of all paths of a pair, one path behind another.
pub fn whole_listing(plan: &Plan, ends: Ends) -> Vec<u16> {
    let input = plan.input();
    let mut buffer = vec![0; plan.slots];
    let mut work = vec![0; work_length(input)];
    let mut list = Vec::new();
    let mut way = Way::First;
    while let (0, hops) = (RUST.way)(way, input, ends, &mut buffer, &mut work) {
        list.extend_from_slice(&buffer[..hops]);
        way = Way::Next;
    }
    list
}

/// The C interface's number of the verdict "complete".
const COMPLETE: u32 = 1;

/// Lent memory, of exactly the named lengths, and the list that is judged.
#[derive(Clone, Debug, PartialEq, Eq)]
pub struct Lent {
    pairs: Vec<u64>,
    loads: Vec<u64>,
    through: Vec<u64>,
    buffer: Vec<u16>,
    work: Vec<u64>,
    /// Empty where no verdict is asked.
    list: Vec<u16>,
}

impl Lent {
    pub fn new(plan: &Plan, question: Question) -> Lent {
        let n = plan.stations;
        let list = match question {
            Question::Verdict(ends) => whole_listing(plan, ends),
            _ => Vec::new(),
        };
        Lent {
            pairs: vec![0; n],
            loads: vec![0; n],
            through: vec![0; n],
            buffer: vec![0; plan.slots],
            work: vec![0; work_length(plan.input())],
            list,
        }
    }

    /// Memory that holds something everywhere.
    fn marked(plan: &Plan, question: Question) -> Lent {
        let mut lent = Lent::new(plan, question);
        for table in [&mut lent.pairs, &mut lent.loads, &mut lent.through] {
            table.fill(4321);
        }
        lent.buffer.fill(4321);
        lent.work.fill(4321);
        lent
    }
}

/// Asks one side, and gives the number of calls; an answer that is no acceptance stops the program.
pub fn ask(side: &Side, plan: &Plan, question: Question, lent: &mut Lent) -> u32 {
    let input = plan.input();
    let mut calls = 1;
    match question {
        Question::Loads => {
            let number = (side.loads)(input, &mut lent.pairs, &mut lent.loads, &mut lent.work);
            assert_eq!(number, 0);
        }
        Question::Pair(ends) => {
            let (number, ..) = (side.pair)(input, ends, &mut lent.through, &mut lent.work);
            assert_eq!(number, 0);
        }
        Question::Listing(ends) => {
            let (mut number, _) =
                (side.way)(Way::First, input, ends, &mut lent.buffer, &mut lent.work);
            while number == 0 {
                (number, _) = (side.way)(Way::Next, input, ends, &mut lent.buffer, &mut lent.work);
                calls += 1;
            }
            assert_eq!(number, LAST);
        }
        Question::Verdict(ends) => {
            let answer = (side.verdict)(input, ends, &lent.list, &mut lent.work);
            assert_eq!(answer, (0, COMPLETE));
        }
    }
    calls
}

/// Both sides, each with lent memory of its own, in step.
struct Both<'a> {
    plan: &'a Plan,
    library: Lent,
    rust: Lent,
}

impl Both<'_> {
    /// Does the same on both sides: equal answers, equal lent memory, and a cleared work area.
    fn step<V: PartialEq + std::fmt::Debug>(&mut self, run: impl Fn(&Side, &mut Lent) -> V) -> V {
        let library = run(&LIBRARY, &mut self.library);
        let rust = run(&RUST, &mut self.rust);
        let name = &self.plan.name;
        assert_eq!(library, rust, "{name}: the answers differ");
        assert!(self.library == self.rust, "{name}: the lent memory differs");
        let cleared = self.library.work.iter().all(|entry| *entry == 0);
        assert!(cleared, "{name}: the work area is not cleared");
        library
    }
}

/// Compares all results of both sides on a question, and stops the program where they differ. The Rust side keeps
/// every reading.
pub fn compare(plan: &Plan, question: Question) {
    assert_eq!(plan.keeping, KEPT, "{}", plan.name);
    let mut both = Both {
        plan,
        library: Lent::marked(plan, question),
        rust: Lent::marked(plan, question),
    };
    let input = plan.input();
    match question {
        Question::Loads => {
            let number = both.step(|side, lent| {
                (side.loads)(input, &mut lent.pairs, &mut lent.loads, &mut lent.work)
            });
            assert_eq!(number, 0);
        }
        Question::Pair(ends) => {
            let (number, ..) =
                both.step(|side, lent| (side.pair)(input, ends, &mut lent.through, &mut lent.work));
            assert_eq!(number, 0);
        }
        Question::Listing(ends) => compare_listing(&mut both, ends),
        Question::Verdict(ends) => {
            let answer =
                both.step(|side, lent| (side.verdict)(input, ends, &lent.list, &mut lent.work));
            assert_eq!(answer, (0, COMPLETE));
        }
    }
}

/// Compares a whole listing, whose paths are as many as the pair's count says.
fn compare_listing(both: &mut Both, ends: Ends) {
    let input = both.plan.input();
    let (_, _, count) =
        both.step(|side, lent| (side.pair)(input, ends, &mut lent.through, &mut lent.work));
    let mut listed = 0;
    let (mut number, _) = both
        .step(|side, lent| (side.way)(Way::First, input, ends, &mut lent.buffer, &mut lent.work));
    while number == 0 {
        listed += 1;
        (number, _) = both.step(|side, lent| {
            (side.way)(Way::Next, input, ends, &mut lent.buffer, &mut lent.work)
        });
    }
    assert_eq!((number, listed), (LAST, count));
}
