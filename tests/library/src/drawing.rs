//! Loads for the drawing program: plans whose records are stated, held to the library's own loads; at the edges; and plans
//! drawn, valid and damaged. After every accepted call each record is read back.

use lister::cases::PLAN_A;
use lister::drawing::{drawn_length, DRAWN_BYTES};
use lister::drawn_cases::{no_share, UNSHARED};
use lister::means::{Means, COUNTED, LISTED};
use lister::operation::Operation;
use lister::partial_cases::too_many_cases;
use lister::plans::Owned;
use lister::random::Random;
use lister::reach_cases::{ladder, rising_row, sent_ladder, star, CORNERS};

use crate::call::Call;
use crate::compare::{Comparison, Difference};
use crate::edges::stated;
use crate::lend::{self, Lengths};
use crate::native::Seen;
use crate::plans;

/// A call of an operation that takes no number behind g and h.
fn call<'a>(
    random: &mut Random,
    operation: Operation,
    owned: &'a Owned,
    lengths: Lengths,
) -> Call<'a> {
    lend::call(random, operation, owned.input(), [0, 0], lengths)
}

/// Drawn loads and loads: the same number, and the same two tables.
fn held(
    comparison: &mut Comparison,
    random: &mut Random,
    owned: &Owned,
    means: Means,
) -> Result<Seen, Difference> {
    let drawn = call(random, Operation::DrawnLoads, owned, Lengths::Named);
    let loads = call(random, Operation::Loads, owned, Lengths::Named);
    let seen = comparison.compare(&drawn, means)?;
    let loads = comparison.compare(&loads, means)?;
    let tables_agree = seen.number != 0 || seen.lent.wide == loads.lent.wide;
    match seen.number == loads.number && tables_agree {
        true => Ok(seen),
        false => Err(format!("{drawn}the loads are not those of loads\n")),
    }
}

/// Compares all of them; the seed is of what is lent and of the drawn plans.
pub fn compare(comparison: &mut Comparison, seed: u64) -> Result<(), Difference> {
    let random = &mut Random::new(seed);
    by_hand(comparison, random)?;
    lengths(comparison, random)?;
    many_walks(comparison, random)?;
    largest(comparison, random)?;
    drawn(comparison, random)?;
    damaged(comparison, random)
}

/// Plan A's records by their bytes, and the one of a station with a pair and no load.
fn by_hand(comparison: &mut Comparison, random: &mut Random) -> Result<(), Difference> {
    let plan_a = Owned::new(5, 4, &PLAN_A).turning(1);
    let unshared = Owned::built(&no_share());
    let idle = [0; 16];
    for (owned, station, doubles) in [
        (&plan_a, 0, idle),
        (
            &plan_a,
            1,
            *b"\x3F\xE5\x55\x55\x55\x40\0\0\x3F\xE5\x55\x55\x55\x80\0\0",
        ),
        (
            &plan_a,
            2,
            *b"\x3F\xF5\x55\x55\x55\x40\0\0\x3F\xF5\x55\x55\x55\x60\0\0",
        ),
        (&plan_a, 3, *b"\x40\x10\0\0\0\0\0\0\x40\x10\0\0\0\x10\0\0"),
        (&plan_a, 4, idle),
        (&unshared, 0, idle),
        (
            &unshared,
            UNSHARED,
            *b"\0\0\0\0\0\0\0\0\x3D\xF0\0\0\0\0\0\0",
        ),
    ] {
        let seen = held(comparison, random, owned, COUNTED)?;
        let record = &seen.lent.bytes[0][DRAWN_BYTES * station..][..DRAWN_BYTES];
        if record != [&[0, station as u8][..], &doubles].concat() {
            return Err(format!("station {station}: stated {doubles:02x?}\n"));
        }
    }
    Ok(())
}

/// Every length of the records up to that of one station more, on plans of 1 to 3 stations, and near the named one of more.
fn lengths(comparison: &mut Comparison, random: &mut Random) -> Result<(), Difference> {
    for stations in [1, 2, 3, 255, 256] {
        let owned = Owned::new(stations, 2, &[]);
        let named = drawn_length(stations);
        let from = if stations > 3 { named - 20 } else { 0 };
        for length in from..=named + DRAWN_BYTES {
            let mut call = call(random, Operation::DrawnLoads, &owned, Lengths::Named);
            call.lent.bytes[0] = lend::bytes(random, length);
            stated(comparison, &call, if length < named { 8 } else { 0 })?;
        }
    }
    Ok(())
}

/// Ladders with counts up to 2^63; and plans with 9 of one source or of several, on the named lengths and on others.
fn many_walks(comparison: &mut Comparison, random: &mut Random) -> Result<(), Difference> {
    for builder in [ladder(64, 2), sent_ladder(41, 3)] {
        held(comparison, random, &Owned::built(&builder), COUNTED)?;
    }
    let mut plans = too_many_cases();
    plans.retain(|case| case.stated == Some(9));
    for case in plans.iter().step_by(3) {
        let owned = lister::partial_cases::plan_of(case).owned();
        let call = |random: &mut Random, lengths| {
            self::call(random, Operation::DrawnLoads, &owned, lengths)
        };
        stated(comparison, &call(random, Lengths::Named), 9)?;
        comparison.compare(&call(random, Lengths::Any), COUNTED)?;
    }
    Ok(())
}

/// 256 stations and 255 slots: a row, one station that meets all others by 8,192 records, and the corners.
fn largest(comparison: &mut Comparison, random: &mut Random) -> Result<(), Difference> {
    for records in [rising_row(), star(), CORNERS.to_vec()] {
        let owned = Owned::new(256, 255, &records);
        held(comparison, random, &owned, COUNTED)?;
        let longer = call(random, Operation::DrawnLoads, &owned, Lengths::Any);
        comparison.compare(&longer, COUNTED)?;
    }
    Ok(())
}

/// Small plans drawn, held to the loads.
fn drawn(comparison: &mut Comparison, random: &mut Random) -> Result<(), Difference> {
    for round in 0..1500 {
        let owned = plans::in_turn(random, round);
        held(comparison, random, &owned, LISTED)?;
    }
    Ok(())
}

/// Plans of every kind, some damaged, on lengths drawn.
fn damaged(comparison: &mut Comparison, random: &mut Random) -> Result<(), Difference> {
    for _ in 0..1500 {
        let owned = plans::any_damaged(random);
        let call = call(random, Operation::DrawnLoads, &owned, Lengths::Any);
        comparison.compare(&call, COUNTED)?;
    }
    Ok(())
}
