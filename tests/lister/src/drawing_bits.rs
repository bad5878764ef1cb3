//! The records of `drawing` by whole numbers alone: no f64 is made here.
//!
//! A double's 64 bits are a sign, 11 bits of exponent and 52 of fraction. Where the exponent is neither 0 nor 2047, its value
//! is 2^52 + fraction, moved by the exponent less 1075. The module is another way to the same bytes; the tests compare the two.

use crate::drawing::{Figures, DRAWN_BYTES};

/// The bits of the fraction.
pub const FRACTION_BITS: u64 = 52;
/// The exponent of the doubles from 2^-32 to below 2^-31: a load of 1 has it.
pub const ONE_EXPONENT: u64 = 1023 - 32;
/// Load and pairs have so many bits at most, and their sum one more.
pub const FIGURE_BITS: u64 = 49;

/// The bits of a double with the fields as given.
pub fn bits_of(sign: u64, exponent: u64, fraction: u64) -> u64 {
    (sign << 63) | (exponent << FRACTION_BITS) | fraction
}

/// The bits of a number below 2^53, times 2^-32: the place of the leading bit gives the exponent, and the bits behind it
/// are the first of the fraction.
pub fn share_bits(number: u64) -> u64 {
    let Some(place) = number.checked_ilog2().map(u64::from) else {
        return 0;
    };
    let behind = number - (1 << place);
    bits_of(0, ONE_EXPONENT + place, behind << (FRACTION_BITS - place))
}

/// The number with these bits that a sum of load and pairs can be, if there is one.
pub fn share_of(bits: u64) -> Option<u64> {
    if bits == 0 {
        return Some(0);
    }
    let place = (bits >> FRACTION_BITS).checked_sub(ONE_EXPONENT)?;
    if place > FIGURE_BITS {
        return None;
    }
    let fraction = bits % (1 << FRACTION_BITS);
    let unit = 1 << (FRACTION_BITS - place);
    (fraction % unit == 0).then_some((1 << place) + fraction / unit)
}

/// The record of possible figures.
pub fn record(figures: Figures) -> [u8; DRAWN_BYTES] {
    let station = u128::from(figures.station);
    let [low, high] = [figures.load, figures.load + figures.pairs];
    let doubles = (u128::from(share_bits(low)) << 64) | u128::from(share_bits(high));
    let byte = |at: usize| match at {
        0 | 1 => station >> (8 - 8 * at),
        _ => doubles >> (8 * (DRAWN_BYTES - 1 - at)),
    };
    std::array::from_fn(|at| byte(at) as u8)
}

/// The figures that bytes are the record of; none where the bytes are foreign.
pub fn read(bytes: &[u8]) -> Option<Figures> {
    let [0, station, doubles @ ..] = bytes else {
        return None;
    };
    if doubles.len() != 16 {
        return None;
    }
    let next = |number: u128, byte: &u8| (number << 8) | u128::from(*byte);
    let doubles = doubles.iter().fold(0, next);
    let load = share_of((doubles >> 64) as u64)?;
    let sum = share_of(doubles as u64)?;
    let fits = |number: u64| number >> FIGURE_BITS == 0;
    let is_idle = (load, sum) == (0, 0);
    let is_carried = sum > load && fits(load) && fits(sum - load);
    (is_idle || is_carried).then_some(Figures {
        station: (*station).into(),
        load,
        pairs: sum - load,
    })
}
