//! A station and a number of walks, as the arguments of a program.

use lister::account::account_text;
use load_program::Program;

/// Two arguments, each of decimal digits.
#[derive(Clone, Copy)]
pub struct Asked<'a> {
    pub station: &'a str,
    pub number: &'a str,
}

/// The number of decimal digits; the largest of the machine where it is larger.
fn value(digits: &str) -> usize {
    let digit = |digit: u8| usize::from(digit - b'0');
    let next = |all: usize, one: u8| all.saturating_mul(10).saturating_add(digit(one));
    digits.bytes().fold(0, next)
}

impl Asked<'_> {
    /// Runs a test of the program with these arguments and turnaround g.
    pub fn with_program<V>(self, path: &str, g: usize, run: impl FnOnce(Program) -> V) -> V {
        let (station, number) = (value(self.station), value(self.number));
        run(Program {
            path,
            name: "why",
            arguments: &[self.station, self.number],
            text: &|input| account_text(g, input, station, number),
        })
    }
}
