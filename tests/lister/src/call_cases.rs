//! Cases of one call on lent tables, for programs that run several operations and for programs of one.

use crate::files::case_bytes;
use crate::means::Counting;
use crate::plan::PlanInput;
use crate::random::Random;
use crate::reach_cases::{bytes_with_cause, other_length};

/// What a case runs.
pub trait Called: Copy {
    /// Its kind in a program that runs several operations; none where the program runs it alone.
    fn kind(self) -> Option<u16>;

    /// Whether the head of a case has h behind g; foremost takes none.
    fn has_keeping(self) -> bool {
        true
    }

    /// The numbers behind g and h in the head of a case: stations, 0 for one that the operation does not name, or
    /// the parts of partial loads' k or of struck out's position.
    fn words(self) -> Vec<u16>;

    /// The places, among the lengths, of the operation's tables.
    fn tables(self) -> Vec<usize>;
}

/// The four parts of 16 bits of a number, the high one first.
pub fn parts(number: u64) -> Vec<u16> {
    let part = |bits: u32| (number >> bits) as u16;
    [48, 32, 16, 0].map(part).to_vec()
}

/// One call on lent tables.
#[derive(Clone, Debug, PartialEq, Eq)]
pub struct CallCase<O, const TABLES: usize> {
    pub label: String,
    pub operation: O,
    /// n
    pub stations: u16,
    /// T
    pub slots: u16,
    /// g; row takes none.
    pub turnaround: u16,
    /// h; row and foremost take none.
    pub keeping: u16,
    pub bytes: Vec<u8>,
    /// What the tables hold before the call.
    pub mark: u16,
    /// The lent entries of each table.
    pub lengths: [usize; TABLES],
    pub counting: Counting,
    /// The number stated by hand; none for a generated case.
    pub stated: Option<u8>,
}

impl<O: Called, const TABLES: usize> CallCase<O, TABLES> {
    /// The case with other lengths.
    pub fn lent(self, lengths: [usize; TABLES]) -> Self {
        CallCase { lengths, ..self }
    }

    /// The case with the length of one table as given.
    pub fn with_length(mut self, table: usize, length: usize) -> Self {
        self.lengths[table] = length;
        self
    }

    /// The case with some tables one entry shorter.
    pub fn shorter(mut self, tables: &[usize]) -> Self {
        for table in tables {
            self.lengths[*table] -= 1;
        }
        self
    }

    /// The case, at n 5 and T 4, with one of the causes 1 to 5, which it states.
    pub fn faulty(mut self, cause: u8) -> Self {
        match cause {
            1 => self.stations = 257,
            _ => self.bytes = bytes_with_cause(cause),
        }
        self.stating(cause)
    }

    /// The case of an index; every fourth has other lengths, some of them too short.
    pub fn lent_near(self, random: &mut Random, index: usize) -> Self {
        match index % 4 {
            3 => {
                let lengths = self.lengths.map(|named| other_length(random, named));
                self.lent(lengths)
            }
            _ => self,
        }
    }

    /// The case with entries behind those of the tables that the operation has.
    pub fn longer(mut self, more: [usize; TABLES]) -> Self {
        for table in self.operation.tables() {
            self.lengths[table] += more[table];
        }
        self
    }

    /// The case with another turnaround.
    pub fn turning(self, turnaround: u16) -> Self {
        CallCase { turnaround, ..self }
    }

    /// The case with another h.
    pub fn keeping_for(self, keeping: u16) -> Self {
        CallCase { keeping, ..self }
    }

    /// The case with another mark.
    pub fn marked(self, mark: u16) -> Self {
        CallCase { mark, ..self }
    }

    /// The case with its number stated by hand.
    pub fn stating(self, number: u8) -> Self {
        CallCase {
            stated: Some(number),
            ..self
        }
    }

    pub fn input(&self) -> PlanInput<'_> {
        PlanInput {
            bytes: &self.bytes,
            stations: self.stations.into(),
            slots: self.slots.into(),
            turnaround: self.turnaround.into(),
            keeping: self.keeping.into(),
        }
    }

    /// The lengths of the operation's tables.
    pub fn lent_lengths(&self) -> Vec<usize> {
        let tables = self.operation.tables().into_iter();
        tables.map(|table| self.lengths[table]).collect()
    }

    /// The bytes on standard input: the kind, n, T, g, h, the numbers behind them, the length of the plan, the
    /// length of the label and the mark; the lengths; the label; the plan. Where there is no kind, only the
    /// operation's tables have a length.
    pub fn stdin_bytes(&self) -> Vec<u8> {
        let kind = self.operation.kind();
        let mut words = Vec::from_iter(kind);
        words.extend([self.stations, self.slots, self.turnaround]);
        words.extend(self.operation.has_keeping().then_some(self.keeping));
        words.extend(self.operation.words());
        words.extend([self.bytes.len(), self.label.len()].map(|length| length as u16));
        words.push(self.mark);
        let lengths = match kind {
            Some(_) => self.lengths.to_vec(),
            None => self.lent_lengths(),
        };
        case_bytes(&words, &lengths, &self.label, &self.bytes)
    }
}
