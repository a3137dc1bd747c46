//! The even table of a job record, engine against reference, and both against what document 01 says where it says it outright. Then that of any curve and targets.
mod any_length;
mod every;
mod generated;
mod held;
mod least_error;
mod order;
mod problems;
mod small;
mod stated;

use compare::yepidlaw::{self, Even};
use reference::engine::Engine;
use reference::even::{is_allowed, worst_step, Table};
use reference::record::Record;

use crate::comparison::{field, Comparison};
use crate::jobs;
use crate::lent::{self, Memory};
use crate::random::Random;
use crate::record_tests::order::example_records;
pub use generated::results as generated_results;

const ENTRIES: usize = 256;
const WORDS: usize = 8_192;
/// Where a record has the allowed error.
const PLACE_OF_ERROR: usize = 10;
/// What working words hold before a call.
const FILLINGS: [&str; 3] = ["zeros", "ones", "noise"];

/// So many working words, and the place of their filling.
fn working_words(random: &mut Random, words: usize) -> (Memory<u32>, usize) {
    let mut work: Memory<u32> = Memory::new(random, words);
    let filling = random.place(FILLINGS.len());
    match filling {
        0 => work.slice().fill(0),
        1 => work.slice().fill(u32::MAX),
        _ => {}
    }
    (work, filling)
}

/// A record, a table and working words to lend.
#[derive(Clone)]
struct Lent {
    table: lent::Lent<u16>,
    work: Memory<u32>,
    filling: usize,
}

impl Lent {
    fn new(random: &mut Random, record: &[u8], entries: usize, words: usize) -> Lent {
        let table = lent::Lent::new(random, record, entries);
        let (work, filling) = working_words(random, words);
        Lent { table, work, filling }
    }
}

/// What the operation gives: its result, and what was lent as it is then.
#[derive(Clone)]
struct Answer {
    result: Even,
    lent: Lent,
}

impl Answer {
    fn of_engine(lent: &Lent) -> Answer {
        let mut lent = lent.clone();
        let (record, table) = lent.table.parts();
        let result = yepidlaw::even_of_writable(record, table, lent.work.slice());
        Answer { result, lent }
    }

    fn refused(number: u32, lent: &Lent) -> Answer {
        Answer { result: Even { refusal: number, worst_step: 0 }, lent: lent.clone() }
    }

    /// The working words may hold anything then, but for those after the first 8,192.
    fn made(table: &Table, lent: &Lent) -> Answer {
        let mut lent = lent.clone();
        for (entry, &ddl) in lent.table.slice()[..ENTRIES].iter_mut().zip(&table.entries) {
            *entry = ddl as u16;
        }
        Answer { result: Even { refusal: 0, worst_step: table.worst_step }, lent }
    }

    fn of_reference(reference: &Engine, lent: &Lent) -> Answer {
        match reference.even(lent.table.record(), lent.table.entries(), lent.work.entries()) {
            Err(number) => Answer::refused(number, lent),
            Ok((_, table)) => Answer::made(&table, lent),
        }
    }

    /// The first place where this is not the answer expected.
    fn difference(&self, expected: &Answer) -> Option<String> {
        let (got, result) = (&self.result, &expected.result);
        let free = if result.refusal == 0 { WORDS } else { 0 };
        field("number", &[got.refusal], &[result.refusal])
            .or_else(|| field("worst step", &[got.worst_step], &[result.worst_step]))
            .or_else(|| self.lent.table.difference(&expected.lent.table))
            .or_else(|| self.lent.work.difference("words", &expected.lent.work, free))
    }

    /// What is wrong with the entries handed back, or with "no table", by themselves: other tables are left to the reference.
    fn fault(&mut self, reference: &Engine) -> Option<String> {
        if !matches!(self.result.refusal, 0 | 11) {
            return None;
        }
        let job = reference.sound(self.lent.table.record()).ok()?;
        let allowed = |p: usize, luminance: u64| is_allowed(luminance, job.targets[p], job.record.tolerance());
        if self.result.refusal == 11 {
            let each_has_one = (0..ENTRIES).all(|p| job.curve.iter().any(|&luminance| allowed(p, luminance)));
            return each_has_one.then(|| "each P-value has an allowed level".to_string());
        }
        let entries: Vec<u64> = self.lent.table.slice()[..ENTRIES].iter().map(|&entry| u64::from(entry)).collect();
        let is_level = |p: usize| job.curve.get(entries[p] as usize).map_or(false, |&luminance| allowed(p, luminance));
        if let Some(p) = (0..ENTRIES).find(|&p| !is_level(p)) {
            return Some(format!("entry {p} is not allowed: {}", entries[p]));
        }
        if let Some(p) = (1..ENTRIES).find(|&p| entries[p] < entries[p - 1]) {
            return Some(format!("the table falls at {p}"));
        }
        field("worst step of the entries", &[self.result.worst_step], &[worst_step(&job.curve, &job.targets, &entries)])
    }

    /// What is wrong where this answer is expected.
    fn wrong(&mut self, reference: &Engine, expected: &Answer) -> Option<String> {
        self.difference(expected).or_else(|| self.fault(reference))
    }
}

/// What is wrong with the engine's answer where this one is expected.
fn wrong(reference: &Engine, lent: &Lent, expected: &Answer) -> Option<String> {
    Answer::of_engine(lent).wrong(reference, expected)
}

/// The same where the number is known, and so the reference's too.
fn wrong_or_other(reference: &Engine, lent: &Lent, number: u32) -> Option<String> {
    let expected = Answer::of_reference(reference, lent);
    let other = (expected.result.refusal != number).then(|| format!("should be {number}"));
    wrong(reference, lent, &expected).or(other)
}

/// The examples of the refusal table, with their numbers. Those that are sound so far have an error of 0, and targets that no level has; with one of 1,000 the lowest level is allowed everywhere.
fn examples() -> Vec<(String, Vec<u8>, u32)> {
    let mut examples = vec![];
    for (name, bytes) in example_records() {
        let of_record = name.parse().ok().filter(|number| (2..=10).contains(number));
        let mut wide = bytes.clone();
        wide.iter_mut().skip(PLACE_OF_ERROR).zip(1_000u16.to_le_bytes()).for_each(|(byte, other)| *byte = other);
        examples.push((name.to_string(), bytes, of_record.unwrap_or(11)));
        examples.push((format!("{name}, error 1,000"), wide, of_record.unwrap_or(0)));
    }
    examples
}

/// A record of a display whose levels are all read, without check; A0 is the sum of the lamps.
fn display(depth: u64, meter: u64, lamps: &[u64], tolerance: u64, luminances: Vec<u64>) -> Record {
    let ddls = (0..1 << depth).collect();
    Record { settings: vec![depth, meter, 1, 1, tolerance], lamps: lamps.to_vec(), ddls, luminances, check: vec![] }
}

type Change = fn(&mut Answer);

/// Each of these makes an answer another one, whether a table was made or not.
const CHANGES: [Change; 14] = [
    |answer| answer.result.refusal ^= 1,
    |answer| answer.result.worst_step += 1,
    |answer| answer.result.worst_step += 1 << 32,
    |answer| answer.lent.table.slice()[0] ^= 1,
    |answer| answer.lent.table.slice()[255] ^= 512,
    |answer| answer.lent.table.slice()[256] ^= 1,
    |answer| answer.lent.table.memory.all[answer.lent.table.memory.first - 1] ^= 1,
    |answer| answer.lent.table.memory.all[answer.lent.table.memory.first + 300] ^= 1,
    |answer| answer.lent.table.bytes[1] ^= 128,
    |answer| answer.lent.work.slice()[8_192] ^= 1,
    |answer| answer.lent.work.slice()[8_999] ^= 1 << 31,
    |answer| answer.lent.work.all[answer.lent.work.first - 1] ^= 1,
    |answer| answer.lent.work.all[answer.lent.work.first + 9_000] ^= 1,
    |answer| answer.lent.work.all.truncate(answer.lent.work.first + 8_999),
];

/// These too, but only where none was made.
const CHANGES_OF_WORDS: [Change; 3] = [
    |answer| answer.lent.work.slice()[0] ^= 1,
    |answer| answer.lent.work.slice()[4_096] ^= 1 << 16,
    |answer| answer.lent.work.slice()[8_191] ^= 1 << 31,
];

/// And each of these makes an answer one whose entries are at fault.
const FAULTS: [Change; 6] = [
    |answer| answer.result.refusal = 11,
    |answer| answer.result.worst_step -= 1,
    |answer| answer.result.worst_step += 1,
    |answer| answer.lent.table.slice()[0] = 255,
    |answer| answer.lent.table.slice()[1] = 256,
    |answer| answer.lent.table.slice()[128] = answer.lent.table.slice()[127] - 1,
];

/// The comparison sees every change of an answer, and lets free words be.
fn differences_are_seen(reference: &Engine) -> bool {
    let mut all = Comparison::new("even: differences are seen");
    let luminances: Vec<u64> = (0..256).map(|d| 10_000 + 40 * d * d).collect();
    let answer = |tolerance: u64| {
        let record = display(8, 0, &[], tolerance, luminances.clone());
        Answer::of_reference(reference, &Lent::new(&mut Random::new(0), &record.bytes(), 300, 9_000))
    };
    let (made, refused) = (answer(1_000), answer(0));
    all.count((made.result.refusal != 0 || refused.result.refusal != 11).then(|| "should be 0 and 11".to_string()));
    for expected in [&made, &refused] {
        all.seen_changes(expected, &CHANGES, |answer| answer.difference(expected));
    }
    all.seen_changes(&refused, &CHANGES_OF_WORDS, |answer| answer.difference(&refused));
    for change in CHANGES_OF_WORDS {
        let mut changed = made.clone();
        change(&mut changed);
        all.count(changed.difference(&made));
    }
    all.seen_changes(&made, &FAULTS, |answer| answer.clone().fault(reference));
    all.ended(1 + 2 * 15 + 4 + 3 + 7)
}

pub fn results(reference: &Engine) -> Vec<bool> {
    let mut results = vec![differences_are_seen(reference)];
    results.extend(stated::results(reference));
    results.push(order::lowest_number(reference));
    results.extend(every::results(reference));
    results.push(least_error::least_errors(reference));
    results.push(held::before(reference));
    results.extend(small::results());
    results.extend(any_length::results());
    results.extend(generated_results(reference, jobs::COUNT, jobs::SEED));
    results
}
