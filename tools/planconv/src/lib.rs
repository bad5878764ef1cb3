//! A plan as lines of text and as bytes, and a plan in the old format doubled.
//!
//! A line is "slot a b": three decimal numbers from 0 to 65535, blanks between them; a sends and b
//! hears. The bytes of a record are the same three numbers, each 16 bits, high byte first. Between
//! lines and bytes order is kept, and no rule of plans is looked at. Names of stations stand in remarks. A
//! plan's first fault is explained from its bytes.

mod double;
mod explain;
mod names;

use std::fmt;

pub use double::double;
pub use explain::{explain, sizes, words, Limits, Sizes, LIBRARY, PROGRAM};
pub use names::{name_lines, names, Names};

/// The numbers of one record: slot, a, b.
const FIELDS: usize = 3;
/// The bytes of one record.
pub const RECORD_BYTES: usize = 2 * FIELDS;

/// Why there is no conversion.
#[derive(Clone, Debug, PartialEq, Eq)]
pub enum Fault {
    /// A line of text, counted from 1, and what is wrong with it.
    Line { line: usize, fault: LineFault },
    /// The bytes end within a record.
    Rest { length: usize, rest: usize },
    /// A record that no plan in the old format has, with its position, counted from 0.
    Record {
        position: usize,
        record: Record,
        fault: RecordFault,
    },
}

/// The numbers of a record: slot, a, b. The derived order is that of a plan.
pub type Record = [u16; FIELDS];

/// What is wrong with a record of a plan in the old format.
#[derive(Clone, Debug, PartialEq, Eq)]
pub enum RecordFault {
    /// a is not below b.
    Stations,
    /// It is not above the record before it.
    Order,
}

/// What is wrong with a line.
#[derive(Clone, Debug, PartialEq, Eq)]
pub enum LineFault {
    /// It has so many words, and not three.
    Words(usize),
    /// The word has a character other than a decimal digit.
    NotANumber(String),
    /// The number does not fit 16 bits.
    TooLarge(String),
    /// A remark that names a station ends before the station's number.
    NoStation,
    /// A remark that names a station ends before the name.
    NoName(u16),
    /// The station has a name from an earlier line.
    NamedTwice(u16),
    /// Another station has the name from an earlier line.
    SameName(String, u16),
}

impl fmt::Display for LineFault {
    fn fmt(&self, to: &mut fmt::Formatter) -> fmt::Result {
        match self {
            LineFault::Words(words) => {
                write!(to, "not three numbers \"slot a b\": words found: {words}")
            }
            LineFault::NotANumber(word) => write!(to, "not a number: {word:?}"),
            LineFault::TooLarge(word) => write!(to, "over {}: {word}", u16::MAX),
            LineFault::NoStation => write!(to, "no station number behind \"station\""),
            LineFault::NoName(station) => write!(to, "no name for station {station}"),
            LineFault::NamedTwice(station) => write!(to, "station {station} has a name already"),
            LineFault::SameName(name, other) => {
                write!(to, "station {other} has the name {name:?} already")
            }
        }
    }
}

impl fmt::Display for RecordFault {
    fn fmt(&self, to: &mut fmt::Formatter) -> fmt::Result {
        match self {
            RecordFault::Stations => write!(to, "a is not below b"),
            RecordFault::Order => write!(to, "it is not above the record before it"),
        }
    }
}

impl fmt::Display for Fault {
    fn fmt(&self, to: &mut fmt::Formatter) -> fmt::Result {
        match self {
            Fault::Line { line, fault } => write!(to, "line {line}: {fault}"),
            Fault::Rest { length, rest } => write!(
                to,
                "{length} bytes are no multiple of {RECORD_BYTES}: \
                 bytes behind the last record: {rest}"
            ),
            Fault::Record {
                position,
                record: [slot, a, b],
                fault,
            } => write!(
                to,
                "no plan in the old format: position {position}, record {slot} {a} {b}: {fault}"
            ),
        }
    }
}

/// A number of a line.
fn field(word: &str) -> Result<u16, LineFault> {
    if !word.bytes().all(|byte| byte.is_ascii_digit()) {
        return Err(LineFault::NotANumber(word.to_string()));
    }
    let number = word.parse();
    number.map_err(|_| LineFault::TooLarge(word.to_string()))
}

/// The text behind the '#' of a line whose first character but blanks it is.
fn remark(line: &str) -> Option<&str> {
    line.trim_start().strip_prefix('#')
}

/// The bytes of a line; none for a blank line and for one whose first character but blanks is '#'.
fn line_bytes(line: &str) -> Result<Vec<u8>, LineFault> {
    if remark(line).is_some() {
        return Ok(Vec::new());
    }
    let words: Vec<&str> = line.split_whitespace().collect();
    if ![0, FIELDS].contains(&words.len()) {
        return Err(LineFault::Words(words.len()));
    }
    let mut bytes = Vec::new();
    for word in words {
        bytes.extend(field(word)?.to_be_bytes());
    }
    Ok(bytes)
}

/// The bytes of a plan's lines. Bytes that are no UTF-8 read as the replacement character.
pub fn to_bytes(text: &[u8]) -> Result<Vec<u8>, Fault> {
    let text = String::from_utf8_lossy(text);
    let mut bytes = Vec::new();
    for (at, line) in text.split('\n').enumerate() {
        let line_fault = |fault| Fault::Line {
            line: at + 1,
            fault,
        };
        bytes.extend(line_bytes(line).map_err(line_fault)?);
    }
    Ok(bytes)
}

/// The record that 6 bytes hold.
fn record(bytes: &[u8]) -> Record {
    let field = |at: usize| u16::from_be_bytes([bytes[at], bytes[at + 1]]);
    [field(0), field(2), field(4)]
}

/// The records of a plan's bytes.
pub fn records(bytes: &[u8]) -> Result<impl Iterator<Item = Record> + '_, Fault> {
    let records = bytes.chunks_exact(RECORD_BYTES);
    let rest = records.remainder().len();
    if rest > 0 {
        let length = bytes.len();
        return Err(Fault::Rest { length, rest });
    }
    Ok(records.map(record))
}

/// The lines of a plan's bytes.
pub fn to_lines(bytes: &[u8]) -> Result<String, Fault> {
    let line = |[slot, a, b]: Record| format!("{slot} {a} {b}\n");
    Ok(records(bytes)?.map(line).collect())
}

#[cfg(test)]
mod tests {
    use super::*;

    /// Doubled plan A.
    const PLAN_A: &[u8] = include_bytes!("../../../tests/plans/a.plan");
    /// Its lines; each has as many characters as a record has bytes.
    const PLAN_A_LINES: &str = "1 0 1\n1 0 2\n1 1 0\n1 2 0\n2 1 3\n2 2 3\n2 3 1\n2 3 2\n\
                                3 2 3\n3 3 2\n4 3 4\n4 4 3\n";

    /// Records 0, 4 and 8 of it.
    const PLAN_A_PARTS: [[u8; 6]; 3] = [[0, 1, 0, 0, 0, 1], [0, 2, 0, 1, 0, 3], [0, 3, 0, 2, 0, 3]];

    fn fault_of(text: &[u8]) -> String {
        to_bytes(text).unwrap_err().to_string()
    }

    #[test]
    fn plan_a_makes_the_round_trip() {
        assert_eq!(to_lines(PLAN_A).unwrap(), PLAN_A_LINES);
        assert_eq!(to_bytes(PLAN_A_LINES.as_bytes()).unwrap(), PLAN_A);
    }

    #[test]
    fn high_byte_comes_first() {
        let bytes = [1, 2, 0, 255, 255, 255];
        assert_eq!(to_bytes(b"258 255 65535\n").unwrap(), bytes);
        assert_eq!(to_lines(&bytes).unwrap(), "258 255 65535\n");
    }

    #[test]
    fn every_number_makes_the_round_trip() {
        for number in 0..=u16::MAX {
            let line = format!("{number} {} {}\n", number ^ 0x55AA, !number);
            let bytes = to_bytes(line.as_bytes()).unwrap();
            assert_eq!(to_lines(&bytes).unwrap(), line);
        }
    }

    #[test]
    fn order_is_kept_and_rules_of_plans_are_not_looked_at() {
        let lines = "9 5 5\n0 7 1\n9 5 5\n";
        let bytes = to_bytes(lines.as_bytes()).unwrap();
        assert_eq!(bytes.len(), 18);
        assert_eq!(to_lines(&bytes).unwrap(), lines);
    }

    #[test]
    fn blank_lines_and_remarks_are_passed_over() {
        let text = b"# slot a b\n\n  \t\r\n1 0 1\r\n   # more: 9 9 9\n\t 2  1\t3 \n#\n3 2 3";
        assert_eq!(to_bytes(text).unwrap(), PLAN_A_PARTS.concat());
        for text in [b"".as_slice(), b"\n", b"#", b"\n\n# nothing\n"] {
            assert!(to_bytes(text).unwrap().is_empty());
        }
        assert_eq!(to_lines(&[]).unwrap(), "");
    }

    #[test]
    fn lines_of_other_numbers_of_words() {
        let message =
            |words: usize| format!("not three numbers \"slot a b\": words found: {words}");
        assert_eq!(fault_of(b"1 0"), format!("line 1: {}", message(2)));
        assert_eq!(fault_of(b"1 0 1\n\n7\n"), format!("line 3: {}", message(1)));
        assert_eq!(fault_of(b"#\n1 0 1 2\n"), format!("line 2: {}", message(4)));
        assert_eq!(fault_of(b"1 0 1 # no\n"), format!("line 1: {}", message(5)));
    }

    #[test]
    fn words_that_are_no_numbers() {
        for word in ["x", "-1", "+1", "1.0", "0x1", "1,", "#1", "\u{661}"] {
            let text = format!("1 0 1\n2 {word} 3\n");
            let expected = format!("line 2: not a number: {word:?}");
            assert_eq!(fault_of(text.as_bytes()), expected);
        }
        assert_eq!(fault_of(b"1 0 \xff"), "line 1: not a number: \"\u{fffd}\"");
    }

    #[test]
    fn numbers_over_sixteen_bits() {
        assert!(to_bytes(b"65535 65535 65535\n").is_ok());
        assert_eq!(fault_of(b"1 0 65536\n"), "line 1: over 65535: 65536");
        let long = "9".repeat(50);
        let text = format!("1 0 1\n{long} 0 1\n");
        let expected = format!("line 2: over 65535: {long}");
        assert_eq!(fault_of(text.as_bytes()), expected);
        assert_eq!(
            to_bytes(b"0000000000001 00000000000000000000000 1\n").unwrap(),
            PLAN_A_PARTS[0]
        );
    }

    #[test]
    fn the_first_wrong_line_is_named() {
        assert_eq!(
            fault_of(b"1 0 1\n1 x 70000\n7 8\n"),
            "line 2: not a number: \"x\""
        );
    }

    #[test]
    fn lengths_that_end_within_a_record() {
        for length in 0..=PLAN_A.len() {
            let lines = to_lines(&PLAN_A[..length]);
            let rest = length % 6;
            if rest == 0 {
                assert_eq!(lines.unwrap(), PLAN_A_LINES[..length]);
            } else {
                assert_eq!(lines, Err(Fault::Rest { length, rest }));
            }
        }
        assert_eq!(
            to_lines(&PLAN_A[..10]).unwrap_err().to_string(),
            "10 bytes are no multiple of 6: bytes behind the last record: 4"
        );
    }
}
