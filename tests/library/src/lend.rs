//! What the calls lend: lengths, and arbitrary contents.

use lister::operation::{Lent, Operation};
use lister::plan::{PlanInput, MOST_SLOTS, MOST_STATIONS};
use lister::random::Random;

use crate::band;
use crate::call::Call;

/// How many entries of a table are lent.
#[derive(Clone, Copy, Debug, PartialEq, Eq)]
pub enum Lengths {
    /// The named ones.
    Named,
    /// The named ones, more, or rarely fewer.
    Any,
}

/// A size in its limits; a size outside of them names a small table, since the call is refused.
fn named_size(size: usize, most: usize) -> usize {
    if size > most {
        3
    } else {
        size
    }
}

/// Lengths of an operation's tables, 16 bits, then 64 bits, of its sets, of its tables of 64 bits with a sign, and of its
/// buffers of bytes.
pub type Parts = [Vec<usize>; 5];

/// The named lengths of an operation.
pub fn named(operation: Operation, input: PlanInput) -> Parts {
    let stations = named_size(input.stations, MOST_STATIONS);
    let slots = named_size(input.slots, MOST_SLOTS);
    [
        operation.narrow(stations, slots),
        operation.wide(stations, slots),
        operation.sets(stations),
        operation.signed(stations),
        operation.bytes(stations),
    ]
}

/// A length for a table with so many named entries.
fn length(random: &mut Random, lengths: Lengths, named: usize) -> usize {
    if lengths == Lengths::Named {
        return named;
    }
    match random.below(64) {
        0 => random.below(named + 1),
        1 | 2 => named.saturating_sub(1),
        3..=20 => named,
        _ => named + random.between(1, 5),
    }
}

/// Arbitrary 16-bit entries.
pub fn narrow(random: &mut Random, length: usize) -> Vec<u16> {
    (0..length).map(|_| random.number() as u16).collect()
}

/// Arbitrary 64-bit entries.
pub fn wide(random: &mut Random, length: usize) -> Vec<u64> {
    (0..length).map(|_| random.number()).collect()
}

/// Arbitrary 64-bit entries with a sign.
pub fn signed(random: &mut Random, length: usize) -> Vec<i64> {
    (0..length).map(|_| random.number() as i64).collect()
}

/// Arbitrary bytes.
pub fn bytes(random: &mut Random, length: usize) -> Vec<u8> {
    (0..length).map(|_| random.number() as u8).collect()
}

/// A set for so many stations, at any odds of members; behind them arbitrary bytes. Some sets have
/// another byte than 0 and 1.
pub fn set(random: &mut Random, stations: usize, length: usize) -> Vec<u8> {
    let odds = random.between(1, 6);
    let inverted = random.below(2) == 0;
    let member = |random: &mut Random| u8::from((random.below(odds) == 0) != inverted);
    let mut set = bytes(random, length);
    let inside = stations.min(length);
    set[..inside].fill_with(|| member(random));
    if inside > 0 && random.below(12) == 0 {
        set[random.below(inside)] = [2, 3, 128, 254, 255][random.below(5)];
    }
    set
}

/// Memory of given lengths for a call, with arbitrary contents; sets are for so many stations. The list is
/// empty.
pub fn of_lengths(random: &mut Random, lengths: &Parts, stations: usize) -> Lent {
    let [narrow_lengths, wide_lengths, set_lengths, signed_lengths, byte_lengths] = lengths;
    Lent {
        narrow: (narrow_lengths.iter())
            .map(|length| narrow(random, *length))
            .collect(),
        wide: (wide_lengths.iter())
            .map(|length| wide(random, *length))
            .collect(),
        sets: (set_lengths.iter())
            .map(|length| set(random, stations, *length))
            .collect(),
        signed: (signed_lengths.iter())
            .map(|length| signed(random, *length))
            .collect(),
        bytes: (byte_lengths.iter())
            .map(|length| bytes(random, *length))
            .collect(),
        list: Vec::new(),
    }
}

/// A call on arbitrary contents; a list has up to 5 entries, and a band's table is near what fits.
pub fn call<'a>(
    random: &mut Random,
    operation: Operation,
    input: PlanInput<'a>,
    arguments: [usize; 2],
    lengths: Lengths,
) -> Call<'a> {
    let tables = named(operation, input);
    let tables = tables.map(|named| {
        let named = named.into_iter();
        named.map(|named| length(random, lengths, named)).collect()
    });
    let mut lent = of_lengths(random, &tables, input.stations);
    if operation.takes_list() {
        let length = random.below(6);
        lent.list = narrow(random, length);
    }
    let mut call = Call {
        operation,
        input,
        arguments,
        lent,
        values: wide(random, operation.values().len()),
    };
    band::draw(random, &mut call);
    call
}
