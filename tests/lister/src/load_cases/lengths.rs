//! Cause 2, before n and T are formed: lengths around a record and around 1,024 records.

use super::Input;
use crate::cases::{plan_bytes, Record};
use crate::load_program::{MOST_CONTACTS, MOST_SLOTS, MOST_STATIONS};
use crate::plan::RECORD_BYTES;
use crate::random::Random;

/// The seed of the arbitrary bytes; each label names it.
const SEED: u64 = 3;

pub fn inputs() -> Vec<Input> {
    let mut random = Random::new(SEED);
    let mut inputs = Vec::new();
    for length in [
        1, 2, 3, 4, 5, 6, 7, 8, 11, 12, 13, 6_138, 6_143, 6_144, 6_145, 6_149, 6_150, 6_151, 6_172,
    ] {
        let too_long = length > MOST_CONTACTS * RECORD_BYTES;
        let wrong = too_long || length % RECORD_BYTES != 0;
        let number = |otherwise: u8| if wrong { 2 } else { otherwise };
        let records = spread_records(length.div_ceil(RECORD_BYTES));
        let mut valid = plan_bytes(&records);
        valid.truncate(length);
        let label = |contents: &str| format!("{length} bytes{contents}");
        inputs.push(Input::on_bytes(
            &label(" of valid records"),
            valid,
            number(0),
        ));
        if length < 20 || length % RECORD_BYTES == 0 {
            let zeros = vec![0; length];
            inputs.push(Input::on_bytes(&label(" of 0"), zeros, number(1)));
            let ones = vec![255; length];
            inputs.push(Input::on_bytes(&label(" of 255"), ones, number(1)));
        }
        let any = (0..length).map(|_| random.below(256) as u8).collect();
        let label = label(&format!(", any, seed {SEED}"));
        inputs.push(Input::on_bytes(&label, any, number(1)));
    }
    inputs
}

/// Valid records within n 32 and T 63, up to 1,071 spread over all slots; with 1,024 of them n is 32 and T
/// is 63.
pub fn spread_records(count: usize) -> Vec<Record> {
    let slot = |at: usize| 1 + at * MOST_SLOTS / count;
    let mut records: Vec<Record> = Vec::new();
    let mut first = 0;
    for at in 0..count {
        if slot(at) != slot(first) {
            first = at;
        }
        let sender = at - first + 15 * (slot(at) % 2);
        let hearer = (sender + 1 + at % (MOST_STATIONS - 1)) % MOST_STATIONS;
        records.push((slot(at) as u16, sender as u16, hearer as u16));
    }
    records
}
