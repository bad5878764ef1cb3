//! The texts of the subcommands show, foremost, loads, partial, struck, drawn, reading, reach, set and verdict.

use crate::answer::Answer;
use crate::drawing::{drawn_length, Figures, DRAWN_BYTES};
use crate::foremost::ForemostValues;
use crate::lent::scratch_length;
use crate::means::{Means, COUNT_LIMIT, LISTED};
use crate::pair::PairValues;
use crate::plan::{read, Ends, PlanInput};
use crate::reach::{reach_named, Tables};
use crate::row::row;
use crate::sets::set_of;
use crate::shortest::{foremost_walks, positions_of};
use crate::walk::walks_from;
use crate::ways::{walks_of_call, WayCall};

/// The text of an answer; a refusal is one line.
pub fn text_of(answer: Answer<String>) -> String {
    match answer {
        Ok(text) => text,
        Err(refusal) => format!("refused {}\n", refusal.number()),
    }
}

/// Numbers in decimal, a space between two.
fn spaced<N: ToString>(numbers: &[N]) -> String {
    let words: Vec<String> = numbers.iter().map(N::to_string).collect();
    words.join(" ")
}

/// A line of through counts, then walks by their positions, one a line.
fn through_text(through: &[u64], walks: &[Vec<u16>]) -> String {
    let lines = walks.iter().map(|walk| format!("path {}\n", spaced(walk)));
    format!("through {}\n{}", spaced(through), lines.collect::<String>())
}

/// Hops, count and through counts of a pair, then its shortest walks, one a line.
pub fn pair_text(input: PlanInput, ends: Ends) -> Answer<String> {
    let plan = read(input)?;
    let mut through = vec![0; plan.stations];
    let mut scratch = vec![0; scratch_length(plan.stations, plan.slots)];
    let PairValues { hops, count } = LISTED.pair(input, ends, &mut through, &mut scratch)?;
    let call = WayCall {
        input,
        source: ends.0,
        destination: ends.1,
        buffer_length: plan.slots,
        scratch_length: scratch.len(),
    };
    let walks = through_text(&through, &walks_of_call(COUNT_LIMIT, &call)?);
    Ok(format!("hops {hops}\ncount {count}\n{walks}"))
}

/// Slot, hops, count and through counts of a pair's shortest foremost paths, then these, one a line.
pub fn foremost_text(input: PlanInput, ends: Ends) -> Answer<String> {
    let plan = read(input.kept())?;
    let mut through = vec![0; plan.stations];
    let mut scratch = vec![0; scratch_length(plan.stations, plan.slots)];
    let ForemostValues { slot, hops, count } =
        LISTED.foremost(input, ends, &mut through, &mut scratch)?;
    let walks = walks_from(&plan, ends.0);
    let paths = positions_of(&foremost_walks(&walks, ends.1));
    let paths = through_text(&through, &paths);
    Ok(format!("slot {slot}\nhops {hops}\ncount {count}\n{paths}"))
}

/// The members of a set, and how many shortest walks of a pair have one of them interior.
pub fn set_text(input: PlanInput, ends: Ends, members: &[usize]) -> Answer<String> {
    let plan = read(input)?;
    let set = set_of(plan.stations, members);
    let mut scratch = vec![0; scratch_length(plan.stations, plan.slots)];
    let count = LISTED.through_set(input, ends, &set, &mut scratch)?;
    let members = members.iter().map(|member| format!(" {member}"));
    Ok(format!(
        "set{} count {count}\n",
        members.collect::<String>()
    ))
}

/// The verdict on a list of positions; one that has no 16 bits stands as 65535, which is none.
pub fn verdict_text(input: PlanInput, ends: Ends, positions: &[usize]) -> Answer<String> {
    let plan = read(input)?;
    let mut scratch = vec![0; scratch_length(plan.stations, plan.slots)];
    let entry = |position: &usize| u16::try_from(*position).unwrap_or(u16::MAX);
    let list: Vec<u16> = positions.iter().map(entry).collect();
    let verdict = LISTED.verdict(input, ends, &list, &mut scratch)?;
    Ok(format!("verdict {}\n", verdict.word()))
}

/// The loads as document 01 prints them for plan A.
pub fn loads_text(means: Means, input: PlanInput) -> Answer<String> {
    let plan = read(input)?;
    let mut pairs = vec![0; plan.stations];
    let mut load = vec![0; plan.stations];
    let mut scratch = vec![0; scratch_length(plan.stations, plan.slots)];
    means.loads(input, &mut pairs, &mut load, &mut scratch)?;
    let mut text = format!(
        "stations {} slots {} contacts {}\n",
        plan.stations,
        plan.slots,
        plan.contacts.len()
    );
    for station in 0..plan.stations {
        text += &format!("{} {} {}\n", station, pairs[station], load[station]);
    }
    Ok(text)
}

/// The number of sources; by how much the loads exceed the partial ones at most, (n − k) × (n − 1) × 2^32;
/// then a line of partial pairs and a line of partial loads.
pub fn partial_text(input: PlanInput, sources: usize) -> Answer<String> {
    let plan = read(input)?;
    let mut pairs = vec![0; plan.stations];
    let mut loads = vec![0; plan.stations];
    let mut scratch = vec![0; scratch_length(plan.stations, plan.slots)];
    LISTED.partial_loads(input, sources, &mut pairs, &mut loads, &mut scratch)?;
    let span = ((plan.stations - sources) * (plan.stations - 1)) << 32;
    let (pairs, loads) = (spaced(&pairs), spaced(&loads));
    Ok(format!(
        "sources {sources} span {span}\npairs {pairs}\nloads {loads}\n"
    ))
}

/// The position and how many pairs use its contact, then a line of the changes of load without it.
pub fn struck_text(input: PlanInput, position: usize) -> Answer<String> {
    let plan = read(input)?;
    let mut changes = vec![0; plan.stations];
    let mut scratch = vec![0; scratch_length(plan.stations, plan.slots)];
    let pairs = LISTED.struck_out(input, position, &mut changes, &mut scratch)?;
    let changes = spaced(&changes);
    Ok(format!(
        "position {position} pairs {pairs}\nchanges {changes}\n"
    ))
}

/// Each station's record, its bytes in two hexadecimal digits each, and what is read back of it.
pub fn drawn_text(input: PlanInput) -> Answer<String> {
    let plan = read(input)?;
    let mut tables = [vec![0; plan.stations], vec![0; plan.stations]];
    let mut records = vec![0; drawn_length(plan.stations)];
    let mut scratch = vec![0; scratch_length(plan.stations, plan.slots)];
    let [pairs, loads] = &mut tables;
    LISTED.drawn_loads(input, pairs, loads, &mut records, &mut scratch)?;
    let line = |record: &[u8]| {
        let bytes: Vec<String> = record.iter().map(|byte| format!("{byte:02x}")).collect();
        format!("{} : {}", bytes.join(" "), reading_text(record))
    };
    Ok(records.chunks_exact(DRAWN_BYTES).map(line).collect())
}

/// What is read back of bytes: "foreign", or station, load and pairs.
pub fn reading_text(bytes: &[u8]) -> String {
    match Figures::read(bytes) {
        Some(figures) => format!("{figures}\n"),
        None => "foreign\n".to_string(),
    }
}

/// Hops and count of each station from a source, then each station's row of appearance counts.
pub fn reach_text(input: PlanInput, source: usize) -> Answer<String> {
    let plan = read(input)?;
    let mut tables = Tables::marked(reach_named(plan.stations, plan.slots), 0);
    LISTED.reach(input, source, tables.lend())?;
    let mut text = String::new();
    for station in 0..plan.stations {
        let (hops, count) = (tables.station_hops[station], tables.station_counts[station]);
        text += &format!("station {station} hops {hops} count {count}\n");
    }
    for station in 0..plan.stations {
        let counts = &mut tables.appearance_counts;
        let part = row(plan.stations, plan.slots, station, counts);
        text += &format!("row {} {}\n", station, spaced(part));
    }
    Ok(text)
}
