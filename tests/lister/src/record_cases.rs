//! Cases for a program that reads records back, from standard input.
//!
//! A case on standard input: the number of the bytes and the length of the label, each 16 bits, high byte first; then the
//! label; then the bytes. The expected output has one line a case: the label, a colon, a space, and "foreign" or station,
//! load and pairs.

mod foreign;
mod limits;
mod near;
mod written;

use crate::drawing::Figures;
use crate::drawing_samples::record_of_bits;
use crate::files::{case_bytes, Filed};

/// The longest label, in bytes.
pub const LONGEST_LABEL: usize = 64;
/// The most bytes of a case.
pub const LONGEST_BYTES: usize = 64;

/// What is read back of bytes: the figures, or none where they are foreign.
pub type Reading = Option<Figures>;

/// Bytes to be read back.
#[derive(Clone, Debug, PartialEq, Eq)]
pub struct Case {
    pub label: String,
    pub bytes: Vec<u8>,
    /// The reading stated by hand; none for a generated case.
    pub stated: Option<Reading>,
}

impl Case {
    /// A case of some bytes.
    fn new(label: &str, bytes: &[u8]) -> Case {
        Case {
            label: label.to_string(),
            bytes: bytes.to_vec(),
            stated: None,
        }
    }

    /// A case of a station and the bits of two doubles.
    fn of_bits(label: &str, station: u16, low: u64, high: u64) -> Case {
        Case::new(label, &record_of_bits(station, low, high))
    }

    /// The case, foreign by hand.
    fn foreign(self) -> Case {
        Case {
            stated: Some(None),
            ..self
        }
    }

    /// The case, with its figures stated by hand.
    fn reading(self, station: u16, load: u64, pairs: u64) -> Case {
        let figures = Figures {
            station,
            load,
            pairs,
        };
        Case {
            stated: Some(Some(figures)),
            ..self
        }
    }

    /// The line of a reading, without its end.
    pub fn line(&self, reading: &Reading) -> String {
        let text = reading.map_or("foreign".to_string(), |figures| figures.to_string());
        format!("{}: {text}", self.label)
    }

    /// What is read back.
    pub fn outcome(&self) -> Reading {
        Figures::read(&self.bytes)
    }
}

impl Filed for Case {
    fn stdin(&self) -> Vec<u8> {
        let lengths = [self.bytes.len(), self.label.len()].map(|length| length as u16);
        case_bytes(&lengths, &[], &self.label, &self.bytes)
    }

    fn stdout(&self) -> String {
        self.line(&self.outcome()) + "\n"
    }
}

/// All cases, in the order of the files.
pub fn all_cases() -> Vec<Case> {
    [
        written::cases(),
        foreign::cases(),
        limits::cases(),
        near::cases(),
    ]
    .concat()
}
