//! Turnarounds: plan A and other inputs with several of them, plans with their slots stretched, plans by hand, rare
//! paths and the longest text with g = 2, generated plans with g from 1 to 17, and 12 with every other cause.

use super::causes::FAULTS;
use super::digits::cycle;
use super::generated::{valid_plan, SIZES};
use super::lengths::spread_records;
use super::{counts, digits, examples, ladders, rare_path, Case, Input, RarePath};
use crate::cases::{plan_bytes, Record, PLAN_A};
use crate::load_program::MOST_SLOTS;
use crate::plan::contacts;
use crate::random::Random;
use crate::turned::{rows_around, TURNED_PLANS, WRONG_TURNAROUNDS};

/// The seed of the generated plans; each label names it.
const SEED: u64 = 24;
/// The number of generated plans of each size; each turnaround from 1 to 17 comes as often.
const GENERATED: usize = 34;

/// Turnarounds in their limits and outside of them.
const SEVERAL: [u16; 9] = [0, 1, 3, 4, 15, 16, 17, 256, 65535];

/// An input and its turnaround.
pub type Turned = (Input, u16);

/// The inputs that the program with g = 1 does not have in its files.
pub fn inputs() -> Vec<Input> {
    let turned = [accepted(), generated()].concat().into_iter();
    turned.map(|(input, _)| input).collect()
}

pub fn cases() -> Vec<Case> {
    let accepted = accepted().into_iter();
    let accepted = accepted.map(|(input, turnaround)| input.turning(turnaround).stating(0));
    let generated = generated().into_iter();
    let generated = generated.map(|(input, turnaround)| input.turning(turnaround));
    [
        several(),
        too_many(),
        wrong_turnarounds(),
        faults_first(),
        accepted.collect(),
        generated.collect(),
    ]
    .concat()
}

/// Inputs that print loads with their turnaround.
fn accepted() -> Vec<Turned> {
    [by_hand(), stretched_inputs(), rare_paths(), longest()].concat()
}

/// Small plans with several turnarounds each, and the longest text with some.
fn several() -> Vec<Case> {
    let mut cases = Vec::new();
    for input in examples::inputs() {
        cases.extend(SEVERAL.map(|turnaround| input.turning(turnaround)));
    }
    let longest = digits::inputs().pop().expect("the longest text");
    cases.extend([1, 3, 16, 17].map(|turnaround| longest.turning(turnaround)));
    cases
}

/// Over 2^64 paths with g = 1: 9, and 12 is before it. With g = 3 walks of h hops have at most as many choices of
/// slots as there are of h among 65 − 2h, and four of stations for each hop, which is below 2^63; with g = 16 there
/// are fewer.
fn too_many() -> Vec<Case> {
    let all = counts::inputs().into_iter();
    let over = all.filter(|input| input.stated == Some(9));
    let numbers = [(1, 9), (3, 0), (16, 0), (0, 12), (17, 12), (65535, 12)];
    let of_input = |input: Input| {
        numbers.map(|(turnaround, number)| input.turning(turnaround).stating(number))
    };
    over.flat_map(of_input).collect()
}

/// 12 alone: the wrong turnarounds that are not among the several.
fn wrong_turnarounds() -> Vec<Case> {
    let others = WRONG_TURNAROUNDS.into_iter();
    let others = others.filter(|turnaround| !SEVERAL.contains(turnaround));
    let plan_a = Input::on_records("plan A", &PLAN_A, 0);
    let case = |turnaround: u16| plan_a.turning(turnaround).stating(12);
    others.map(case).collect()
}

/// 12 with each cause of an input, which is before it.
fn faults_first() -> Vec<Case> {
    let whole = plan_bytes(&PLAN_A);
    let length =
        |what: &str, bytes: Vec<u8>| Input::on_bytes(&format!("2 before 12, {what}"), bytes, 2);
    let mut inputs = vec![
        length("1 byte", vec![0]),
        length("a byte behind plan A", [whole.as_slice(), &[0]].concat()),
        length("plan A without a byte", whole[1..].to_vec()),
    ];
    for (fault, records, number) in FAULTS {
        let label = format!("{number} before 12, {fault}");
        inputs.push(Input::on_records(&label, records, number));
    }
    let mut cases = Vec::new();
    for turnaround in [0, 17, 256, 65535] {
        cases.extend(inputs.iter().map(|input| input.turning(turnaround)));
    }
    let too_many = length("1025 records", plan_bytes(&spread_records(1025)));
    cases.push(too_many.turning(17));
    cases
}

/// The plans by hand but for plan A, and rows in every slot. Their labels name their turnaround behind the rest.
pub fn by_hand() -> Vec<Turned> {
    let turned = TURNED_PLANS[1..].iter().map(|plan| plan.labelled());
    let turned = turned.chain(rows_around()).map(|plan| {
        let (label, _) = plan.label.rsplit_once(", g ").expect("a turnaround");
        let label = format!("by hand, {label}");
        (Input::on_bytes(&label, plan.bytes, 0), plan.turnaround)
    });
    turned.collect()
}

/// The plan with each slot t moved to 1 + (t − 1) × g: with g a contact follows there where it does with 1 in the
/// plan before.
pub fn stretched(turnaround: usize, bytes: &[u8]) -> Vec<u8> {
    let records = contacts(bytes).map(|contact| {
        let slot = 1 + (contact.slot - 1) * turnaround;
        (slot as u16, contact.sender as u16, contact.hearer as u16)
    });
    plan_bytes(&records.collect::<Vec<Record>>())
}

/// The examples and ladders that print loads and have at most 63 slots when they are stretched: they print the same
/// loads as with g = 1.
fn stretched_inputs() -> Vec<Turned> {
    let mut inputs = Vec::new();
    for turnaround in [2, 3, 16] {
        for input in [examples::inputs(), ladders::inputs()].concat() {
            let last = contacts(&input.bytes).last().map_or(1, |last| last.slot);
            if input.stated == Some(0) && 1 + (last - 1) * turnaround <= MOST_SLOTS {
                let label = format!("slower, {}", input.label);
                let bytes = stretched(turnaround, &input.bytes);
                inputs.push((Input::on_bytes(&label, bytes, 0), turnaround as u16));
            }
        }
    }
    inputs
}

/// Hops and slots of rare paths with g = 2: shares of 10 digits, of 9, and so on to 1, then the share 0.
pub const RARE_TWO_SLOTS: [(usize, usize); 11] = [
    (2, 3),
    (2, 6),
    (2, 21),
    (2, 63),
    (3, 42),
    (4, 43),
    (5, 54),
    (6, 55),
    (7, 56),
    (8, 63),
    (9, 63),
];

fn rare_paths() -> Vec<Turned> {
    let input = |(hops, slots): (usize, usize)| {
        let turnaround = 2;
        let (bytes, rare, count) = rare_path(RarePath {
            hops,
            slots,
            turnaround,
        });
        let label = format!("station {rare} in one of {count} slower paths");
        (Input::on_bytes(&label, bytes, 0), turnaround as u16)
    };
    RARE_TWO_SLOTS.map(input).to_vec()
}

/// A cycle in every odd slot prints the longest text with g = 2 too.
fn longest() -> Vec<Turned> {
    let bytes = cycle((1..=MOST_SLOTS).step_by(2));
    vec![(Input::on_bytes("longest text in odd slots", bytes, 0), 2)]
}

/// Generated plans with g from 1 to 17.
fn generated() -> Vec<Turned> {
    let mut random = Random::new(SEED);
    let mut inputs = Vec::new();
    for size in &SIZES {
        for index in 0..GENERATED {
            let label = format!("{} {index}, seed {SEED}", size.name);
            let bytes = valid_plan(&mut random, size);
            let turnaround = 1 + index as u16 % 17;
            inputs.push((Input::on_bytes(&label, bytes, 0), turnaround));
        }
    }
    inputs
}
