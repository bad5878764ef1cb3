//! Names of stations, from remarks "# station 3 weir mast" among a plan's lines.

use std::collections::BTreeMap;

use crate::{field, remark, Fault, LineFault};

/// The word with which the remark that names a station begins.
const WORD: &str = "station";

/// The names of stations.
pub type Names = BTreeMap<u16, String>;

/// The station and the name that a line gives; none where it is no remark that begins with the word. The blanks
/// between two words of a name are read as one.
fn named(line: &str) -> Result<Option<(u16, String)>, LineFault> {
    let Some(text) = remark(line) else {
        return Ok(None);
    };
    let mut words = text.split_whitespace();
    if words.next() != Some(WORD) {
        return Ok(None);
    }
    let number = words.next().ok_or(LineFault::NoStation)?;
    let station = field(number)?;
    let name = words.collect::<Vec<&str>>().join(" ");
    if name.is_empty() {
        return Err(LineFault::NoName(station));
    }
    Ok(Some((station, name)))
}

/// Takes a name in; a station has one name, and a name one station.
fn take(names: &mut Names, station: u16, name: String) -> Result<(), LineFault> {
    if names.contains_key(&station) {
        return Err(LineFault::NamedTwice(station));
    }
    if let Some((other, _)) = names.iter().find(|(_, known)| **known == name) {
        return Err(LineFault::SameName(name, *other));
    }
    names.insert(station, name);
    Ok(())
}

/// The names that a plan's lines give; lines that are no remarks are not looked at.
pub fn names(text: &[u8]) -> Result<Names, Fault> {
    let text = String::from_utf8_lossy(text);
    let mut names = Names::new();
    for (at, line) in text.split('\n').enumerate() {
        let taken = named(line).and_then(|found| match found {
            Some((station, name)) => take(&mut names, station, name),
            None => Ok(()),
        });
        taken.map_err(|fault| Fault::Line {
            line: at + 1,
            fault,
        })?;
    }
    Ok(names)
}

/// A line for each name, as it stands among a plan's lines.
pub fn name_lines(names: &Names) -> String {
    let line = |(station, name): (&u16, &String)| format!("# {WORD} {station} {name}\n");
    names.iter().map(line).collect()
}

#[cfg(test)]
mod tests {
    use super::*;
    use crate::to_bytes;

    fn fault_of(text: &str) -> String {
        names(text.as_bytes()).unwrap_err().to_string()
    }

    #[test]
    fn names_stand_in_remarks() {
        let text = "# station 3 weir mast\n1 0 1\n  #station\t0  Old   lock \r\n#stations 7 all\n# the station 1 x\n";
        let expected = [(0, "Old lock".to_string()), (3, "weir mast".to_string())];
        assert_eq!(names(text.as_bytes()).unwrap(), Names::from(expected));
        assert_eq!(to_bytes(text.as_bytes()).unwrap(), [0, 1, 0, 0, 0, 1]);
    }

    #[test]
    fn plans_without_names() {
        for text in ["", "1 0 1\n", "# nothing\n#\n", "station 3 weir\n"] {
            assert!(names(text.as_bytes()).unwrap().is_empty());
        }
    }

    #[test]
    fn names_make_the_round_trip() {
        let text = "# station 0 a\n# station 12 b c\n# station 65535 <&\"\u{e9}>\n";
        let found = names(text.as_bytes()).unwrap();
        assert_eq!(name_lines(&found), text);
    }

    #[test]
    fn remarks_that_name_no_station() {
        assert_eq!(
            fault_of("#\n# station\n"),
            "line 2: no station number behind \"station\""
        );
        assert_eq!(
            fault_of("# station weir mast\n"),
            "line 1: not a number: \"weir\""
        );
        assert_eq!(
            fault_of("# station 3: mast\n"),
            "line 1: not a number: \"3:\""
        );
        assert_eq!(
            fault_of("# station 65536 mast\n"),
            "line 1: over 65535: 65536"
        );
        assert_eq!(
            fault_of("\n# station 3 \n"),
            "line 2: no name for station 3"
        );
    }

    #[test]
    fn names_that_stand_twice() {
        assert_eq!(
            fault_of("# station 3 weir\n1 0 1\n# station 3 mast\n"),
            "line 3: station 3 has a name already"
        );
        assert_eq!(
            fault_of("# station 3 weir\n# station 4 weir\n"),
            "line 2: station 3 has the name \"weir\" already"
        );
    }
}
