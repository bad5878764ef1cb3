//! Refused plans: the number and the record at fault, against the plain lister.

use lister::load_cases::all_inputs;
use lister::load_program::{accepted_plan, load_text};
use lister::plan::{check, PlanInput};
use lister::random::Random;
use planconv::{to_bytes, Names, Record};
use planpage::desk::{Desk, Load};
use planpage::page::{refusal_line, refused_page};
use planpage::plan::{Plan, Refusal, Units};

fn refusal(lines: &str) -> Option<Refusal> {
    let bytes = to_bytes(lines.as_bytes()).unwrap();
    Plan::new(bytes, Names::new(), Units::Now).err()
}

/// The number of a refusal, and the position and the record at fault.
fn told(lines: &str) -> (u32, Option<(usize, Record)>) {
    let refusal = refusal(lines).unwrap();
    let fault = refusal.record.map(|fault| (fault.position, fault.record));
    (refusal.number, fault)
}

#[test]
fn the_record_at_fault() {
    assert_eq!(told("1 0 1\n5 1 2\n2 0 1\n"), (3, Some((1, [5, 1, 2]))));
    assert_eq!(told("0 0 1\n2 0 1\n"), (3, Some((0, [0, 0, 1]))));
    // P8 of document 01: a repeated record, a station with itself
    assert_eq!(told("1 0 1\n1 0 1\n"), (5, Some((1, [1, 0, 1]))));
    assert_eq!(told("1 0 1\n2 3 3\n3 0 1\n"), (4, Some((1, [2, 3, 3]))));
    assert_eq!(told("1 0 1\n2 1 0\n2 0 1\n"), (5, Some((2, [2, 0, 1]))));
}

#[test]
fn the_limits_of_the_load_program() {
    assert_eq!(told("1 0 32\n"), (1, None));
    assert_eq!(told("64 0 1\n"), (1, None));
    assert_eq!(told("0 0 1\n"), (1, None));
    assert!(refusal("63 0 31\n").is_none());
    assert!(refusal("").is_none());
    let refused = |bytes: Vec<u8>| Plan::new(bytes, Names::new(), Units::Now).unwrap_err();
    assert_eq!(refused(vec![0; 11]).number, 2);
    assert_eq!(refused([0, 1, 0, 0, 0, 1].repeat(1025)).number, 2);
    assert_eq!(refused([0, 1, 0, 0, 0, 1].repeat(1024)).number, 5);
}

/// A plan of a few records, one of them damaged.
fn damaged(random: &mut Random) -> Vec<u8> {
    let count = random.between(1, 8);
    let mut records: Vec<Record> = (0..count)
        .map(|_| {
            let sender = random.below(5);
            let hearer = (sender + random.between(1, 4)) % 5;
            [random.between(1, 6), sender, hearer].map(|field| field as u16)
        })
        .collect();
    records.sort_unstable();
    records.dedup();
    let (at, field) = (random.below(records.len()), random.below(3));
    records[at][field] = random.below(8) as u16;
    let fields = records.iter().flatten();
    fields.flat_map(|field| field.to_be_bytes()).collect()
}

#[test]
fn generated_plans_have_the_listers_number_and_place() {
    let mut random = Random::new(5);
    let mut seen = [0; 6];
    for _ in 0..20_000 {
        let bytes = damaged(&mut random);
        let plan = Plan::new(bytes.clone(), Names::new(), Units::Now);
        let expected = accepted_plan(2, &bytes).err();
        let expected = expected.map_or(0, |refusal| u32::from(refusal.number()));
        let Err(refusal) = plan else {
            assert_eq!(expected, 0);
            continue;
        };
        assert_eq!(refusal.number, expected);
        seen[expected as usize] += 1;
        let Some(fault) = refusal.record else {
            assert!(expected < 3);
            continue;
        };
        let sizes = refusal.sizes.unwrap();
        let accepts = |records: usize| {
            let input = PlanInput {
                bytes: &bytes[..6 * records],
                stations: sizes.stations,
                slots: sizes.slots,
                turnaround: 2,
                keeping: 255,
            };
            check(input).is_ok()
        };
        assert!(accepts(fault.position) && !accepts(fault.position + 1));
    }
    assert!(seen[3..].iter().all(|times| *times > 100), "{seen:?}");
}

#[test]
fn a_refusal_is_told_in_a_line_and_on_a_page() {
    let names = planconv::names(b"# station 3 weir <mast>\n").unwrap();
    let refusal = refusal("1 0 1\n2 3 3\n").unwrap();
    assert_eq!(
        refusal_line(&refusal, &names),
        "refused 4: a equals b, or either is \u{2265} n: \
         position 1, slot 2, station 3 (weir <mast>) sends, station 3 (weir <mast>) hears"
    );
    let page = refused_page(&refusal, &names);
    for part in [
        "<b>\u{2715} 4</b>",
        "a equals b, or either is \u{2265} n",
        "<th>position</th><td>1 (counted from 0)</td>",
        "<th>slot</th><td>2</td>",
        "<th>sender</th><td>station 3 (weir &lt;mast&gt;)</td>",
    ] {
        assert!(page.contains(part), "{part}");
    }
}

/// The load program's text for an input, from the plan and the loads that the page shows.
fn text_of(bytes: &[u8], units: Units) -> String {
    let plan = Plan::new(bytes.to_vec(), Names::new(), units);
    let answer = plan.map_err(|refusal| refusal.number).and_then(|plan| {
        let loads = Desk::new(plan.input()).loads()?;
        Ok((plan.sizes, plan.records.len(), loads))
    });
    let (sizes, contacts, loads) = match answer {
        Ok(answer) => answer,
        Err(number) => return format!("refused {number}\n"),
    };
    let line =
        |(station, load): (usize, &Load)| format!("{station} {} {}\n", load.pairs, load.load);
    let lines: String = loads.iter().enumerate().map(line).collect();
    let (n, t) = (sizes.stations, sizes.slots);
    format!("stations {n} slots {t} contacts {contacts}\n{lines}")
}

#[test]
fn every_input_of_the_load_programs_has_their_text() {
    let mut refused = 0;
    for input in all_inputs() {
        for units in [Units::Now, Units::Older] {
            let expected = load_text(units.turnaround(), &input.bytes);
            assert_eq!(text_of(&input.bytes, units), expected, "{}", input.label);
            refused += usize::from(expected == "refused 9\n");
        }
    }
    assert!(refused > 0);
}
