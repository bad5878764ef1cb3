//! Explanations against the plain lister's numbers, and their sentences.

use lister::load_program::accepted_plan;
use lister::plan::{check, PlanInput};
use lister::random::Random;
use planconv::{explain, sizes, to_bytes, Sizes};

/// The turnaround of the load program; no fault of a plan depends on it.
const TURNAROUND: usize = 2;

/// The explanation of lines, without the words of the papers.
fn told(lines: &str, given: Option<Sizes>) -> String {
    let text = explain(&to_bytes(lines.as_bytes()).unwrap(), given);
    text.split(" [").next().unwrap().trim_end().to_string()
}

/// The number that an explanation gives; 0 for none.
fn number(text: &str) -> u8 {
    assert!(text.ends_with('\n') && text.matches('\n').count() == 1);
    match text.strip_prefix("refused ") {
        Some(rest) => rest.split(':').next().unwrap().parse().unwrap(),
        None => {
            assert!(text.starts_with("no fault: "));
            0
        }
    }
}

/// The number that the lister's load program gives for bytes, and that its check gives with n and T.
fn expected(bytes: &[u8], given: Option<Sizes>) -> u8 {
    let refusal = match given {
        None => accepted_plan(TURNAROUND, bytes).err(),
        Some(Sizes { stations, slots }) => check(PlanInput {
            bytes,
            stations,
            slots,
            turnaround: TURNAROUND,
            keeping: 255,
        })
        .err(),
    };
    refusal.map_or(0, |refusal| refusal.number())
}

/// The number after a record of the explanation, which is the first at which the lister's check refuses.
fn compare_place(bytes: &[u8], given: Option<Sizes>, text: &str) {
    let records: Vec<[u16; 3]> = planconv::records(bytes).unwrap().collect();
    let of = given.unwrap_or_else(|| sizes(&records));
    let refused = |end: &usize| expected(&bytes[..6 * end], Some(of)) != 0;
    let end = (1..=records.len()).find(refused).unwrap();
    let [slot, a, b] = records[end - 1];
    let place = format!(
        "record {end} of {} (position {}: slot {slot}, station {a} sends, station {b} hears)",
        records.len(),
        end - 1
    );
    assert!(text.contains(&place), "{text} has not {place}");
}

/// Compares an explanation with the lister, and gives the number.
fn compare(bytes: &[u8], given: Option<Sizes>) -> u8 {
    let text = explain(bytes, given);
    let found = number(&text);
    assert_eq!(found, expected(bytes, given), "{bytes:?} {given:?}: {text}");
    if found >= 3 {
        compare_place(bytes, given, &text);
    }
    found
}

/// A plan of a few records that mostly rise, with a field damaged at times.
fn generated(random: &mut Random) -> Vec<u8> {
    let count = random.below(7);
    let mut records: Vec<[u16; 3]> = Vec::new();
    for _ in 0..count {
        let sender = random.below(5);
        let hearer = (sender + random.between(1, 4)) % 5;
        let slot = random.between(1, 6);
        records.push([slot as u16, sender as u16, hearer as u16]);
    }
    records.sort_unstable();
    if random.below(4) > 0 {
        records.dedup();
    }
    if !records.is_empty() && random.below(2) == 0 {
        let (at, field) = (random.below(records.len()), random.below(3));
        let choices = [0, 1, 4, 7, 31, 32, 63, 64, 255, 256, 257, 65535];
        records[at][field] = choices[random.below(choices.len())];
    }
    let mut bytes: Vec<u8> = records
        .iter()
        .flatten()
        .flat_map(|field| field.to_be_bytes())
        .collect();
    if random.below(20) == 0 {
        bytes.extend(std::iter::repeat_n(0, random.below(6)));
    }
    bytes
}

#[test]
fn generated_plans_have_the_listers_numbers() {
    let mut random = Random::new(20);
    let mut seen = [[0; 6]; 2];
    for _ in 0..40_000 {
        let bytes = generated(&mut random);
        seen[0][usize::from(compare(&bytes, None))] += 1;
        let given = Sizes {
            stations: random.below(7) + 250 * usize::from(random.below(9) == 0),
            slots: random.below(8) + 250 * usize::from(random.below(9) == 0),
        };
        seen[1][usize::from(compare(&bytes, Some(given)))] += 1;
    }
    assert!(seen.iter().flatten().all(|times| *times > 100), "{seen:?}");
}

#[test]
fn the_limits_have_the_listers_numbers() {
    let record = |slot: usize, a: usize, b: usize| format!("{slot} {a} {b}\n");
    let many = |count: usize| -> String {
        let all = (1..=63).flat_map(|slot| (0..32).map(move |a| (slot, a)));
        let lines = all.map(|(slot, a)| record(slot, a, (a + 1) % 32));
        lines.take(count).collect()
    };
    for (lines, given, refused) in [
        (many(1024), None, 0),
        (many(1025), None, 2),
        (record(63, 0, 31), None, 0),
        (record(63, 0, 32), None, 1),
        (record(64, 0, 31), None, 1),
        (record(0, 0, 1), None, 1),
        (record(1, 0, 65535), None, 1),
        (many(1025), Some((32, 63)), 0),
        (record(255, 255, 0), Some((256, 255)), 0),
        (String::new(), Some((257, 255)), 1),
        (String::new(), Some((256, 256)), 1),
        (String::new(), Some((0, 1)), 1),
        (String::new(), None, 0),
    ] {
        let given = given.map(|(stations, slots)| Sizes { stations, slots });
        let bytes = to_bytes(lines.as_bytes()).unwrap();
        assert_eq!(compare(&bytes, given), refused, "{given:?}");
    }
    let long = [0, 1, 0, 0, 0, 1].repeat(8193);
    let given = Some(Sizes {
        stations: 2,
        slots: 1,
    });
    assert_eq!(compare(&long[..6 * 8192], given), 5);
    assert_eq!(compare(&long, given), 2);
}

#[test]
fn sentences() {
    for (lines, expected) in [
        ("", "no fault: stations 1, slots 1, contacts 0"),
        ("1 0 1\n4 3 1\n", "no fault: stations 4, slots 4, contacts 2"),
        (
            "1 0 1\n5 1 2\n2 0 1\n",
            "refused 3: record 2 of 3 (position 1: slot 5, station 1 sends, station 2 hears): \
             its slot is above 2, the slot of the plan's last record",
        ),
        (
            "0 0 1\n2 0 1\n",
            "refused 3: record 1 of 2 (position 0: slot 0, station 0 sends, station 1 hears): \
             its slot is 0, and slots are counted from 1",
        ),
        (
            "1 0 1\n2 3 3\n",
            "refused 4: record 2 of 2 (position 1: slot 2, station 3 sends, station 3 hears): \
             the sender and the hearer are the same station",
        ),
        (
            "1 0 1\n1 0 1\n",
            "refused 5: record 2 of 2 (position 1: slot 1, station 0 sends, station 1 hears): \
             it stands twice, as the record before it too",
        ),
        (
            "1 1 0\n1 0 1\n",
            "refused 5: record 2 of 2 (position 1: slot 1, station 0 sends, station 1 hears): \
             it belongs before the record in front of it (slot 1, station 1 sends, station 0 hears)",
        ),
        (
            "1 0 40\n2 0 1\n",
            "refused 1: stations: 41, and not 1 to 32, by record 1 of 2 \
             (position 0: slot 1, station 0 sends, station 40 hears)",
        ),
        (
            "1 0 1\n64 0 1\n",
            "refused 1: slots: 64, and not 1 to 63, by record 2 of 2 \
             (position 1: slot 64, station 0 sends, station 1 hears)",
        ),
    ] {
        assert_eq!(told(lines, None), expected);
    }
    let given = Some(Sizes {
        stations: 3,
        slots: 2,
    });
    assert_eq!(
        told("1 0 3\n", given),
        "refused 4: record 1 of 1 (position 0: slot 1, station 0 sends, station 3 hears): \
         station 3 is not below 3, the number of stations"
    );
    let five = Some(Sizes {
        stations: 0,
        slots: 2,
    });
    assert_eq!(
        told("1 0 3\n", five),
        "refused 1: stations: 0, and not 1 to 256"
    );
    assert!(explain(b"12345", None).starts_with("refused 2: 5 bytes are no multiple of 6"));
    let words = "[plan not a multiple of 6 bytes, or over 1,024 records]\n";
    assert!(explain(b"12345", None).ends_with(words));
}
