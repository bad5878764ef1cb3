//! Decimal figures of units of 1 / 2^32 and of doubles.

/// How many units are one.
const ONE: u128 = 1 << 32;

/// Units as ones with six decimals, rounded to the nearest, a half away from zero.
pub fn six_decimals(units: u64) -> String {
    let millionths = (2 * u128::from(units) * 1_000_000 + ONE) / (2 * ONE);
    format!("{}.{:06}", millionths / 1_000_000, millionths % 1_000_000)
}

/// A double that is a whole number of units, in full: no such number has more than 32 decimals.
pub fn in_full(value: f64) -> String {
    let digits = format!("{value:.32}");
    digits
        .trim_end_matches('0')
        .trim_end_matches('.')
        .to_string()
}

#[cfg(test)]
mod tests {
    use super::*;

    #[test]
    fn six_decimals_are_the_nearest() {
        for (units, expected) in [
            (0, "0.000000"),
            (1, "0.000000"),
            (2147, "0.000000"),
            (2148, "0.000001"),
            (1 << 32, "1.000000"),
            // document 01: stations 1, 2 and 3 of plan A
            (2_863_311_530, "0.666667"),
            (5_726_623_060, "1.333333"),
            (17_179_869_184, "4.000000"),
            // 1 / 128 = 0.0078125, a half
            (1 << 25, "0.007813"),
            ((1 << 32) - 1, "1.000000"),
            (992 << 32, "992.000000"),
        ] {
            assert_eq!(six_decimals(units), expected);
        }
    }

    /// Units in full by long division.
    fn divided(units: u64) -> String {
        let mut rest = u128::from(units) % ONE;
        let mut digits = format!("{}", u128::from(units) / ONE);
        if rest > 0 {
            digits.push('.');
        }
        while rest > 0 {
            rest *= 10;
            digits.push(char::from(b'0' + (rest / ONE) as u8));
            rest %= ONE;
        }
        digits
    }

    #[test]
    fn doubles_are_printed_in_full() {
        assert_eq!(in_full(0.0), "0");
        assert_eq!(in_full(10.0), "10");
        assert_eq!(in_full(0.5), "0.5");
        assert_eq!(
            in_full(1.0 / 4_294_967_296.0),
            "0.00000000023283064365386962890625"
        );
        for units in [1, 3, 2_863_311_530, 5_726_623_062, (992 << 32) - 1] {
            let value = units as f64 / 4_294_967_296.0;
            assert_eq!(in_full(value), divided(units));
        }
    }
}
