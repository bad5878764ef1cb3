//! Wrong arguments, which are told before anything is read, and unusual ones that are numbers.

use std::io::Seek;
use std::os::fd::OwnedFd;
use std::process::Stdio;

use load_program::failures::{connection, redirected, started, PLAN_A};
use load_program::run::{compare, finish, InputFile, Written};
use load_program::Program;

use crate::asked::Asked;

/// The one message for all wrong arguments.
const WRONG_ARGUMENTS: &str = "the arguments are a station and a number of walks, 0 to 8";

/// Lists of more or fewer than two arguments.
const OTHER_COUNTS: [&[&str]; 11] = [
    &[],
    &["3"],
    &["8"],
    &[""],
    &["3 8"],
    &["3", "8", "0"],
    &["3", "8", ""],
    &["3", "8", "x"],
    &["", "3", "8"],
    &["--", "3", "8"],
    &["3", "8", "3", "8"],
];

/// No decimal numbers: empty, with a sign, a blank, a letter, a point, a line feed, or the characters before and behind
/// the digits, in any place.
const NO_NUMBERS: [&str; 30] = [
    "", "x", "-1", "+1", "1x", "-0", "+0", "x1", "1x1", " 1", "1 ", "1 1", " ", "1\n", "\n1",
    "1\t", "0x1", "1.0", "1,", "1e0", "-", "+", "--", "/", ":", "1/", ":1", "\u{661}", "\u{ff11}",
    "1\u{661}",
];

/// Numbers above 8; some are in their low bits not.
const TOO_LARGE: [&str; 14] = [
    "9",
    "10",
    "11",
    "16",
    "80",
    "009",
    "100",
    "256",
    "264",
    "65536",
    "4294967296",
    "18446744073709551616",
    "18446744073709551624",
    "99999999999999999999",
];

/// Stations that are not below plan A's n, up to more than the machine's numbers; some are in their low bits.
const FAR_STATIONS: [&str; 19] = [
    "5",
    "31",
    "32",
    "255",
    "256",
    "259",
    "65535",
    "65536",
    "65539",
    "4294967295",
    "4294967296",
    "4294967299",
    "9223372036854775807",
    "9223372036854775811",
    "18446744073709551615",
    "18446744073709551616",
    "18446744073709551619",
    "99999999999999999999",
    "340282366920938463463374607431768211459",
];

/// Numbers with zeros in front.
const PADDED: [(&str, &str); 5] = [
    ("00", "00"),
    ("03", "8"),
    ("3", "08"),
    ("0003", "0002"),
    (
        "00000000000000000000000000003",
        "00000000000000000000000000001",
    ),
];

/// Every wrong list of arguments.
fn wrong_lists() -> Vec<Vec<&'static str>> {
    let mut lists: Vec<Vec<&str>> = OTHER_COUNTS.iter().map(|list| list.to_vec()).collect();
    for word in NO_NUMBERS {
        lists.extend([vec![word, "8"], vec!["3", word], vec![word, word]]);
    }
    for number in TOO_LARGE {
        lists.extend([vec!["3", number], vec!["99", number], vec!["x", number]]);
    }
    lists
}

/// Runs the program with every wrong list, on several inputs; answers the number of lists, or tells of the first
/// difference.
pub fn wrong(path: &str, g: usize) -> Result<usize, String> {
    let lists = wrong_lists();
    for list in &lists {
        let program = Program {
            path,
            name: "why",
            arguments: list,
            text: &|_| unreachable!("nothing is read with g {g}"),
        };
        let told = |what: String| format!("arguments {list:?}: {what}");
        wrong_list(program).map_err(told)?;
    }
    Ok(lists.len())
}

/// The message comes for plan A and for a part of a record, of which nothing is read; where the input never comes;
/// and where input or output is closed.
fn wrong_list(program: Program) -> Result<(), String> {
    let expected = program.message(WRONG_ARGUMENTS);
    for input in [PLAN_A, &PLAN_A[..1]] {
        unread(program, input)?.expect(&expected)?;
    }
    let (ours, theirs) = connection()?;
    let child = started(program, OwnedFd::from(theirs).into(), Stdio::piped())?;
    let waiting = |what: String| format!("an input that never comes: {what}");
    finish(child).map_err(waiting)?.expect(&expected)?;
    drop(ours);
    for closed in ["<&-", ">&-", "<&- >&-"] {
        let told = |what: String| format!("{closed}: {what}");
        let written = redirected(program, closed, Stdio::null()).map_err(told)?;
        written.expect(&expected).map_err(told)?;
    }
    Ok(())
}

/// All that the program writes for an input from a file, at whose beginning it leaves the file.
fn unread(program: Program, input: &[u8]) -> Result<Written, String> {
    let file = InputFile::default();
    let mut opened = file.holding(input)?;
    let told = |error: std::io::Error| error.to_string();
    let stdin = opened.try_clone().map_err(told)?;
    let written = finish(started(program, stdin.into(), Stdio::piped())?)?;
    match opened.stream_position().map_err(told)? {
        0 => Ok(written),
        read => Err(format!("{read} bytes were read")),
    }
}

/// Runs the program with far stations and with padded numbers, on plan A, on the empty input and on a part of a record;
/// answers the number of lists, or tells of the first difference.
pub fn unusual(path: &str, g: usize) -> Result<usize, String> {
    let far = FAR_STATIONS
        .iter()
        .flat_map(|far| [(*far, "0"), (*far, "8")]);
    let lists: Vec<(&str, &str)> = far.chain(PADDED).collect();
    let file = InputFile::default();
    for (station, number) in &lists {
        let asked = Asked { station, number };
        for input in [PLAN_A, &[], &PLAN_A[..1]] {
            let label = format!("arguments {station} {number}, {} bytes", input.len());
            asked.with_program(path, g, |program| compare(program, &label, input, &file))?;
        }
    }
    Ok(lists.len())
}
