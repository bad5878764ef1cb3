//! One call of the library.

use std::fmt;

use lister::means::Means;
use lister::operation::{Answered, Lent, Operation};
use lister::plan::{contacts, Contact, PlanInput, RECORD_BYTES};

/// The library's function of an operation.
pub fn function(operation: Operation) -> &'static str {
    match operation {
        Operation::Check => "joftaki_check",
        Operation::Reach => "joftaki_reach",
        Operation::Row => "joftaki_row",
        Operation::RowNumber => "joftaki_row_number",
        Operation::Pair => "joftaki_pair",
        Operation::Loads => "joftaki_loads",
        Operation::Busiest => "joftaki_busiest",
        Operation::FirstWay => "joftaki_first_way",
        Operation::NextWay => "joftaki_next_way",
        Operation::ThroughSet => "joftaki_through_set",
        Operation::Foremost => "joftaki_foremost",
        Operation::PartialLoads => "joftaki_partial_loads",
        Operation::Verdict => "joftaki_verdict",
        Operation::TakeIn => "joftaki_take_in",
        Operation::TakeOut => "joftaki_take_out",
        Operation::StruckOut => "joftaki_struck_out",
        Operation::DrawnLoads => "joftaki_drawn_loads",
    }
}

/// One call, with what it lends as it is before.
#[derive(Clone, Debug)]
pub struct Call<'a> {
    pub operation: Operation,
    pub input: PlanInput<'a>,
    /// The numbers behind n, T, g and h: the one station, source and destination, k, c, or the position; further ones
    /// are not given.
    pub arguments: [usize; 2],
    pub lent: Lent,
    /// The places for the values beside the number.
    pub values: Vec<u64>,
}

impl Call<'_> {
    /// What the call must answer, and what it must leave of a copy of what it lends.
    pub fn expected(&self, means: Means) -> (Answered, Lent) {
        let mut lent = self.lent.clone();
        let answered = means.call(self.operation, self.input, self.arguments, &mut lent);
        (answered, lent)
    }
}

/// The lengths of tables.
fn lengths<N>(tables: &[Vec<N>]) -> Vec<usize> {
    tables.iter().map(Vec::len).collect()
}

impl fmt::Display for Call<'_> {
    /// The plan as lines "slot a b" (a sends, b hears), n, T, g, h, the arguments and the lengths.
    fn fmt(&self, to: &mut fmt::Formatter) -> fmt::Result {
        for contact in contacts(self.input.bytes) {
            let Contact {
                slot,
                sender,
                hearer,
            } = contact;
            writeln!(to, "{slot} {sender} {hearer}")?;
        }
        let rest = self.input.bytes.chunks_exact(RECORD_BYTES).remainder();
        if !rest.is_empty() {
            writeln!(to, "and the bytes {rest:?}")?;
        }
        let PlanInput {
            stations,
            slots,
            turnaround,
            keeping,
            ..
        } = self.input;
        writeln!(to, "n {stations} T {slots} g {turnaround} h {keeping}")?;
        let given = &self.arguments[..self.operation.arguments()];
        let name = match self.operation {
            Operation::PartialLoads => "k",
            Operation::TakeIn => "c",
            Operation::StruckOut => "position",
            _ => "stations",
        };
        write!(to, "{}, {name} {given:?}", function(self.operation))?;
        write!(to, ", 16-bit tables {:?}", lengths(&self.lent.narrow))?;
        write!(to, ", 64-bit tables {:?}", lengths(&self.lent.wide))?;
        write!(to, ", with a sign {:?}", lengths(&self.lent.signed))?;
        writeln!(to, ", bytes {:?}", lengths(&self.lent.bytes))?;
        for set in &self.lent.sets {
            writeln!(to, "set: {set:?}")?;
        }
        if self.operation.takes_list() {
            writeln!(to, "list: {:?}", self.lent.list)?;
        }
        if self.operation.takes_way_buffer() {
            writeln!(to, "way buffer before: {:?}", self.lent.narrow[0])?;
        }
        if self.operation.takes_band() {
            writeln!(to, "table before: {:?}", self.lent.narrow[0])?;
        }
        Ok(())
    }
}
