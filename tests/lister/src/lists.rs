//! Lists of positions near the complete list of a pair, for the verdict.

use std::collections::BTreeSet;

/// A list, and words that say how it comes from a complete list.
pub type NearList = (String, Vec<u16>);

/// The first entries of a list, each number of them.
pub fn prefixes(list: &[u16]) -> Vec<NearList> {
    let prefix = |length: usize| (format!("first {length} entries"), list[..length].to_vec());
    (0..=list.len()).map(prefix).collect()
}

/// A list with one change, in a plan of so many records: each entry is changed, to the next position, to
/// the one before, in one of the high bits, and to the first number that is no position; dropped; there
/// twice; swapped with each later one; and the list has one entry more behind it.
pub fn with_one_change(list: &[u16], records: u16) -> Vec<NearList> {
    let mut lists = Vec::new();
    let mut push = |words: String, change: &dyn Fn(&mut Vec<u16>)| {
        let mut changed = list.to_vec();
        change(&mut changed);
        lists.push((words, changed));
    };
    for (place, entry) in list.iter().copied().enumerate() {
        let (next, before) = (entry.wrapping_add(1), entry.wrapping_sub(1));
        let other_bit = entry ^ 1 << (8 + place % 8);
        for value in BTreeSet::from([next, before, other_bit, records]) {
            push(format!("{value} at {place}"), &|list| list[place] = value);
        }
        push(format!("entry {place} dropped"), &|list| {
            list.remove(place);
        });
        push(format!("entry {place} twice"), &|list| {
            list.insert(place, entry);
        });
        for other in place + 1..list.len() {
            push(format!("entries {place}, {other} swapped"), &|list| {
                list.swap(place, other);
            });
        }
    }
    for value in BTreeSet::from([0, records, u16::MAX]) {
        push(format!("{value} behind"), &|list| list.push(value));
    }
    lists
}

/// The list of some walks with whole walks changed: each missing, there twice, and swapped with the next; the
/// walks in the other order; the first one behind all; and all twice.
pub fn with_walks_changed(walks: &[Vec<u16>]) -> Vec<NearList> {
    let mut lists = Vec::new();
    let mut push = |words: String, changed: &[&[Vec<u16>]]| {
        lists.push((words, changed.concat().concat()));
    };
    for place in 0..walks.len() {
        let (before, from) = walks.split_at(place);
        push(format!("path {place} missing"), &[before, &from[1..]]);
        push(format!("path {place} twice"), &[before, &from[..1], from]);
        if let [one, other, behind @ ..] = from {
            let swapped = [other.clone(), one.clone()];
            push(
                format!("path {place} after the next"),
                &[before, &swapped, behind],
            );
        }
    }
    if let [first, _, ..] = walks {
        let reversed: Vec<Vec<u16>> = walks.iter().rev().cloned().collect();
        push("paths in the other order".to_string(), &[&reversed]);
        push(
            "first path behind all".to_string(),
            &[walks, &[first.clone()]],
        );
        push("all paths twice".to_string(), &[walks, walks]);
    }
    lists
}

/// All of them: the prefixes, the whole list among them, and those with a change.
pub fn near(walks: &[Vec<u16>], records: u16) -> Vec<NearList> {
    let list = walks.concat();
    [
        prefixes(&list),
        with_one_change(&list, records),
        with_walks_changed(walks),
    ]
    .concat()
}
