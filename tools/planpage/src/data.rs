//! The survey as JSON for the page's script.
//!
//! A position is two characters of the alphabet, the high one first, and a walk the positions of its legs. A place
//! among a pair's walks is one character. Counts are strings, since they may be above 2^53.

use crate::desk::{Struck, Walk};
use crate::layout::Layout;
use crate::plan::Plan;
use crate::survey::{Inside, Listed, Shown, Survey};
use crate::text::json;

/// The digits of a position and of a place, those of base64 for addresses.
const ALPHABET: &[u8; 64] = b"ABCDEFGHIJKLMNOPQRSTUVWXYZabcdefghijklmnopqrstuvwxyz0123456789-_";

fn digit(number: usize) -> char {
    char::from(ALPHABET[number])
}

/// Walks, one behind another.
fn walks(walks: &[Walk]) -> String {
    let positions = walks
        .iter()
        .flatten()
        .map(|position| usize::from(*position));
    positions
        .flat_map(|position| [digit(position / 64), digit(position % 64)])
        .collect()
}

/// [station, through, share, places] or [station, through, share, "", walks].
fn inside(inside: &Inside) -> String {
    let (station, through, share) = (inside.station, inside.through, inside.share);
    let shown = match &inside.shown {
        Shown::Places(places) => {
            let places: String = places.iter().map(|place| digit(*place)).collect();
            format!("\"{places}\"")
        }
        Shown::Apart(apart) => format!("\"\",\"{}\"", walks(apart)),
    };
    format!("[{station},\"{through}\",{share},{shown}]")
}

/// [source, destination, hops, count, walks, insides].
fn pair(listed: &Listed) -> String {
    let (source, destination) = listed.ends;
    format!(
        "[{source},{destination},{},\"{}\",\"{}\",{}]",
        listed.pair.hops,
        listed.pair.count,
        walks(&listed.walks),
        array(listed.inside.iter().map(inside))
    )
}

/// [number, pairs] and then a station and its change for each change that is not 0.
fn struck(struck: &Struck) -> String {
    let changes = struck.changes.iter().enumerate();
    let changed = changes.filter(|(_, change)| **change != 0);
    let changed = changed.map(|(station, change)| format!(",{station},{change}"));
    let changed: String = changed.collect();
    format!("[{},{}{changed}]", struck.number, struck.pairs)
}

fn array(items: impl Iterator<Item = String>) -> String {
    format!("[{}]", items.collect::<Vec<String>>().join(","))
}

/// All that the script needs.
pub fn data(plan: &Plan, survey: &Survey, layout: &Layout) -> String {
    let stations = 0..plan.sizes.stations as u16;
    let name = |station| plan.names.get(&station).map_or("", String::as_str);
    let contacts = plan.records.iter().zip(&layout.lanes);
    let contacts = contacts.map(|([slot, a, b], x)| format!("[{slot},{a},{b},{x:.1}]"));
    let loads = survey.loads.iter();
    format!(
        "{{\"names\":{},\"loads\":{},\"pairs\":{},\"contacts\":{},\"listed\":{},\"struck\":{}}}",
        array(stations.map(|station| json(name(station)))),
        array(loads.clone().map(|load| load.load.to_string())),
        array(loads.map(|load| load.pairs.to_string())),
        array(contacts),
        array(survey.pairs.iter().map(pair)),
        array(survey.struck.iter().map(struck)),
    )
}

#[cfg(test)]
mod tests {
    use super::*;

    #[test]
    fn positions_have_two_digits() {
        assert_eq!(walks(&[vec![0, 63], vec![64, 1023]]), "AAA_BAP_");
        assert_eq!(walks(&[]), "");
    }

    #[test]
    fn only_changes_are_told() {
        let told = struck(&Struck {
            number: 0,
            pairs: 3,
            changes: vec![0, -5, 0, 7],
        });
        assert_eq!(told, "[0,3,1,-5,3,7]");
    }
}
