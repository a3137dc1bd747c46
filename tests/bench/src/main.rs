//! The engine beside the same methods in Rust and in C: same inputs, one run.
//!
//!   bench check             whether all sides give the same, input by input
//!   bench times             best time of a pass over the inputs, for each case and side
//!   bench list              the cases, with the number of inputs and the number of passes timed
//!   bench pass CASE SIDE    one pass, for counting instructions
//!   bench program CASE SIDE the program and the record's file of a case that runs programs

use std::collections::HashSet;
use std::time::Instant;

use compare::even;
use compare::gsdf::raw;
use compare::record::{self, RecordValues};
use compare::yepidlaw::{Check, Nearest};

use bench::in_rust;

mod cases;
mod growth;
mod programs;
mod random;
mod records;
mod side;

use cases::{cases, Case, Function};
use growth::Growth;
use programs::Inputs;
use records::Records;
use side::Side;

/// What the functions work on.
struct Material {
    records: Records,
    growth: Growth,
    inputs: Inputs,
}

impl Material {
    fn new() -> Material {
        let records = Records::new();
        let inputs = Inputs::new(&records);
        Material { records, growth: Growth::new(), inputs }
    }
}

/// What the functions are lent.
struct Lent {
    table: Vec<u16>,
    starts: Vec<u16>,
    ends: Vec<u16>,
    work: Vec<u32>,
    deviations: [i32; 17],
}

impl Lent {
    /// Each entry is this before the first call.
    fn new(before: u16) -> Lent {
        let entries = || vec![before; growth::MOST];
        let work = vec![u32::from(before); 32 * growth::MOST];
        Lent { table: entries(), starts: entries(), ends: entries(), work, deviations: [i32::from(before); 17] }
    }

    fn for_growth(&mut self) -> even::Lent<'_> {
        even::Lent { starts: &mut self.starts, ends: &mut self.ends, table: &mut self.table, work: &mut self.work }
    }
}

/// A number to which each part of the values contributes.
fn digest(values: &RecordValues) -> u32 {
    let last = values.readings - 1;
    let job = [values.depth, values.meter, values.class, values.reflectance, values.tolerance, values.lux];
    let job: u32 = (1..).zip(job).map(|(weight, value)| weight * u32::from(value)).sum();
    values.refusal + job + u32::from(values.ddls[last]) + values.luminances[last] + values.check[values.patches - 1]
}

/// The same for entries; `check` compares every one.
fn digest_of_entries(table: &[u16]) -> u32 {
    u32::from(table[0]) + u32::from(table[128]) + u32::from(table[255])
}

/// The same for a nearest table.
fn digest_of_table(result: &Nearest, table: &[u16]) -> u32 {
    let numbers = [result.refusal, result.jlo, result.jhi, result.range, result.room_high, result.error];
    let numbers: u32 = (1..).zip(numbers).map(|(weight, value)| weight * value).sum();
    numbers + digest_of_entries(table)
}

/// The same for a contrast check.
fn digest_of_deviations(result: &Check, deviations: &[i32; 17]) -> u32 {
    let sum: i32 = (1..).zip(deviations).map(|(weight, deviation)| weight * deviation).sum();
    result.refusal + 100 * result.verdict + sum.unsigned_abs()
}

/// Hands over each result of a case, in the order of its inputs, which keep to what the functions ask: see `cases`.
#[inline(always)]
fn each(case: &Case, side: Side, material: &Material, lent: &mut Lent, mut take: impl FnMut(u32)) {
    let bytes = |&place: &u32| &material.records.list[place as usize][..];
    let inputs = case.inputs.iter();
    match (case.function, side) {
        (Function::Luminance, Side::Engine) => inputs.for_each(|&k| take(unsafe { raw::gsdf_luminance_of(k) })),
        (Function::Luminance, _) => inputs.for_each(|&k| take(in_rust::gsdf::luminance_of(k))),
        (Function::Index, Side::Engine) => inputs.for_each(|&l| take(unsafe { raw::gsdf_index_of(l) })),
        (Function::Index, _) => inputs.for_each(|&l| take(in_rust::gsdf::index_of(l))),
        (Function::Record, Side::Engine) => inputs.for_each(|place| take(digest(&record::read(bytes(place))))),
        (Function::Record, _) => inputs.for_each(|place| take(digest(&in_rust::record::read(bytes(place))))),
        (Function::Nearest(_), side) => inputs.for_each(|place| {
            let result = side.nearest(bytes(place), &mut lent.table);
            take(digest_of_table(&result, &lent.table));
        }),
        (Function::Check(_), side) => inputs.for_each(|place| {
            let result = side.check(bytes(place), &mut lent.deviations);
            take(digest_of_deviations(&result, &lent.deviations));
        }),
        (Function::Even(_), side) => inputs.for_each(|place| {
            let result = side.even(bytes(place), &mut lent.table, &mut lent.work);
            take(result.refusal + result.worst_step as u32 + digest_of_entries(&lent.table));
        }),
        (Function::Growth, side) => inputs.for_each(|&place| {
            let result = material.growth.fill(side, place, lent.for_growth());
            take(result.made + result.worst_step as u32 + digest_of_entries(&lent.table));
        }),
        (Function::Program(_), side) => inputs.for_each(|&place| take(material.inputs.run(side, place))),
    }
}

/// One pass over a case's inputs; the sum of the results.
#[no_mangle]
#[inline(never)]
fn measured_pass(case: &Case, side: Side, material: &Material, lent: &mut Lent) -> u64 {
    let mut sum = 0;
    each(case, side, material, lent, |result| sum += u64::from(result));
    sum
}

/// What the engine gives, where the other side gives the same; before the call each side's slices hold other values.
fn same<A: PartialEq>(other: Side, answer: impl Fn(Side, &mut Lent) -> A) -> Option<A> {
    let [engine, other] = [(Side::Engine, 1), (other, 2)].map(|(side, before)| answer(side, &mut Lent::new(before)));
    (engine == other).then_some(engine)
}

/// Whether the engine and another side give the result that they should for the input at place `i` of a case, and write the same.
fn same_slices(case: &Case, other: Side, i: usize, material: &Material) -> bool {
    let place = case.inputs[i];
    let bytes = || &material.records.list[place as usize][..];
    match case.function {
        Function::Nearest(refusals) => {
            let number = refusals[i % refusals.len()];
            let answer = same(other, |side, lent| (side.nearest(bytes(), &mut lent.table), lent.table[..written(number)].to_vec()));
            answer.map_or(false, |(result, _)| result.refusal == number)
        }
        Function::Even(refusals) => {
            let number = refusals[i % refusals.len()];
            let answer =
                same(other, |side, lent| (side.even(bytes(), &mut lent.table, &mut lent.work), lent.table[..written(number)].to_vec()));
            answer.map_or(false, |(result, _)| result.refusal == number)
        }
        Function::Check(results) => {
            let expected = results[i % results.len()];
            let places = if expected.verdict == 0 { 0 } else { 17 };
            let answer = same(other, |side, lent| (side.check(bytes(), &mut lent.deviations), lent.deviations[..places].to_vec()));
            answer.map_or(false, |(result, _)| result == expected)
        }
        Function::Growth => {
            let values = material.growth.values(place);
            let answer = same(other, |side, lent| (material.growth.fill(side, place, lent.for_growth()), lent.table[..values].to_vec()));
            answer.map_or(false, |(result, _)| result == growth::RESULT)
        }
        Function::Program(refusals) => {
            let expected = match refusals[i % refusals.len()] {
                0 => "range ".to_string(),
                number => format!("refused {number}\n"),
            };
            let reports = same(other, |side, _| material.inputs.report(side, place));
            reports.flatten().map_or(false, |report| report.starts_with(expected.as_bytes()))
        }
        Function::Record => {
            let values = record::read(bytes());
            values.refusal == 0 && values == in_rust::record::read(bytes())
        }
        Function::Luminance | Function::Index => true,
    }
}

/// How many entries an operation with this refusal writes.
fn written(refusal: u32) -> usize {
    if refusal == 0 {
        256
    } else {
        0
    }
}

/// Whether a case has inputs, and 1,000 that differ where they are drawn displays; one case has one of these again and again.
fn has_inputs(case: &Case) -> bool {
    let different = case.inputs.iter().collect::<HashSet<_>>().len();
    match case.function {
        _ if case.name == "check-again" => different == 1,
        Function::Nearest(&[0]) | Function::Check(&[Check { refusal: 0, .. }]) => different == records::DRAWN,
        _ => 0 < different,
    }
}

/// Compares the results of the engine with those of each other side, for every case; whether all are equal.
fn check(cases: &[Case], material: &Material) -> bool {
    let results = |case: &Case, side| {
        let mut all = Vec::new();
        each(case, side, material, &mut Lent::new(0), |result| all.push(result));
        all
    };
    let (mut passed, mut failed) = (0, 0);
    let mut count = |name: &str, other: Side, same: bool| {
        if same {
            passed += 1;
        } else {
            failed += 1;
            println!("FAILED: {name}: the engine and the side in {} differ", other.name());
        }
    };
    for case in cases {
        let of_engine = results(case, Side::Engine);
        for &other in &case.sides()[1..] {
            let same_slices = || (0..case.inputs.len()).all(|i| same_slices(case, other, i, material));
            count(case.name, other, has_inputs(case) && of_engine == results(case, other) && same_slices());
        }
    }
    for other in [Side::Rust, Side::C] {
        let report = |side, place| material.inputs.report(side, place);
        let same = |place| report(Side::Engine, place).map_or(false, |engine| Some(engine) == report(other, place));
        count("reports of records", other, material.records.for_programs.iter().all(|&place| same(place)));
    }
    println!("{passed} passed, {failed} failed");
    failed == 0
}

/// The same reference, of which the compiler knows nothing, so that a pass is not made once for all.
fn opaque<T>(value: &T) -> &T {
    unsafe { std::ptr::read_volatile(&value) }
}

/// The best time of many passes, in nanoseconds for each input; the sides take turns.
fn times(cases: &[Case], material: &Material) {
    let mut lent = Lent::new(0);
    for case in cases {
        let sides = case.sides();
        let expected = measured_pass(case, Side::Rust, material, &mut lent);
        let mut best = vec![f64::INFINITY; sides.len()];
        for _ in 0..case.passes {
            for (&side, best) in sides.iter().zip(&mut best) {
                let began = Instant::now();
                let sum = measured_pass(opaque(case), side, opaque(material), &mut lent);
                let took = began.elapsed().as_nanos() as f64;
                assert_eq!(sum, expected, "{}", case.name);
                *best = best.min(took / case.inputs.len() as f64);
            }
        }
        for (side, best) in sides.iter().zip(best) {
            println!("{} {} {:.2}", case.name, side.name(), best);
        }
    }
}

fn main() {
    let material = Material::new();
    let cases = cases(&material.records);
    let words: Vec<String> = std::env::args().skip(1).collect();
    let words: Vec<&str> = words.iter().map(String::as_str).collect();
    let named = |name: &str| cases.iter().find(|case| case.name == name).expect("a case's name");
    let side_of = |case: &Case, name: &str| *case.sides().iter().find(|side| side.name() == name).expect("a side of the case");
    match words[..] {
        ["check"] => {
            if !check(&cases, &material) {
                std::process::exit(1);
            }
        }
        ["times"] => times(&cases, &material),
        ["list"] => cases.iter().for_each(|case| println!("{} {} {}", case.name, case.inputs.len(), case.passes)),
        ["pass", name, side] => {
            let case = named(name);
            println!("{}", measured_pass(case, side_of(case, side), &material, &mut Lent::new(0)));
        }
        ["program", name, side] => {
            let case = named(name);
            println!("{}\n{}", programs::path(side_of(case, side)).display(), material.inputs.file(case.inputs[0]).display());
        }
        _ => {
            eprintln!("usage: bench check | bench times | bench list | bench pass CASE SIDE | bench program CASE SIDE");
            std::process::exit(2);
        }
    }
}
