//! The job record, engine against reference, and both against what document 01 says where it says it outright.
mod damaged;
pub mod order;
mod sections;
mod values;

use compare::record::{self as engine, RecordValues};
use compare::yepidlaw;
use reference::record::{self, Record};

use crate::comparison::{field, start, Comparison};

/// What reading gives: the number, 0 for an accepted record, and the record where the tests 2 to 4 pass.
#[derive(Debug, PartialEq)]
struct Answer {
    number: u32,
    record: Option<Record>,
}

impl Answer {
    fn of_reference(bytes: &[u8]) -> Answer {
        match record::read(bytes) {
            Err(number) => Answer { number, record: None },
            Ok(record) => Answer { number: record::judge(&record).err().unwrap_or(0), record: Some(record) },
        }
    }

    /// What tools/job reads.
    fn of_job(bytes: &[u8]) -> Answer {
        match job::record::read_any(bytes) {
            Err(refused) => Answer { number: refused.number, record: None },
            Ok(job) => Answer { number: job.fault().map_or(0, |fault| fault.refusal), record: Some(record_of(&job)) },
        }
    }
}

fn record_of(job: &job::job::Job) -> Record {
    Record {
        settings: job.settings.iter().map(|&setting| setting.into()).collect(),
        lamps: job.lamps.iter().map(|&lux| lux.into()).collect(),
        ddls: job.sweep.iter().map(|reading| reading.level.into()).collect(),
        luminances: job.sweep.iter().map(|reading| reading.luminance.into()).collect(),
        check: job.check.iter().map(|&luminance| luminance.into()).collect(),
    }
}

/// The first place where the engine reads something else than tools/job does. Every record that is compared goes through it.
pub fn job_difference(bytes: &[u8]) -> Option<String> {
    engine_difference(&engine::read(bytes), &Answer::of_job(bytes)).map(|difference| format!("tools/job, {difference}"))
}

/// The first place where the engine's values are not this answer; a refused record has no job and so no lux.
fn engine_difference(got: &RecordValues, expected: &Answer) -> Option<String> {
    let nothing = Record::default();
    let read = expected.record.as_ref().unwrap_or(&nothing);
    let lux: u64 = read.lamps.iter().sum();
    let zeros = vec![0; 5];
    let (expected_settings, expected_lux) = if expected.number == 0 { (&read.settings, lux) } else { (&zeros, 0) };
    let job = [got.depth, got.meter, got.class, got.reflectance, got.tolerance];
    // A count beyond the array differs by itself, so its items need not be looked at.
    let settings = got.settings.get(..got.given).unwrap_or(&[]);
    let lamps = got.lamps.get(..got.sources).unwrap_or(&[]);
    let ddls = got.ddls.get(..got.readings).unwrap_or(&[]);
    let luminances = got.luminances.get(..got.readings).unwrap_or(&[]);
    let check = got.check.get(..got.patches).unwrap_or(&[]);
    field("number", &[got.refusal], &[u64::from(expected.number)])
        .or_else(|| field("settings of the job", &job, expected_settings))
        .or_else(|| field("lux", &[got.lux], &[expected_lux]))
        .or_else(|| field("given", &[got.given as u64], &[read.settings.len() as u64]))
        .or_else(|| field("settings", settings, &read.settings))
        .or_else(|| field("sources", &[got.sources as u64], &[read.lamps.len() as u64]))
        .or_else(|| field("lamps", lamps, &read.lamps))
        .or_else(|| field("readings", &[got.readings as u64], &[read.ddls.len() as u64]))
        .or_else(|| field("DDLs", ddls, &read.ddls))
        .or_else(|| field("luminances", luminances, &read.luminances))
        .or_else(|| field("patches", &[got.patches as u64], &[read.check.len() as u64]))
        .or_else(|| field("check", check, &read.check))
}

/// The operations refuse what reading refuses, and else nothing but a curve: under 8, 9 or 10; and a check besides under 12 or 13.
fn operations_difference([nearest, even, check]: [u32; 3], number: u32) -> Option<String> {
    let agrees = match number {
        0 => matches!(nearest, 0 | 8..=10) && (check == nearest || nearest == 0 && matches!(check, 12 | 13)),
        _ => nearest == number && check == number,
    };
    (!agrees || even != nearest).then(|| format!("nearest gives number {nearest}, even {even}, check {check}, reading {number}"))
}

/// The numbers under which a nearest table, an even table and a check are refused, 0 for none. Where a nearest table is made, an even one would take long, and other tests make it.
fn operations_numbers(bytes: &[u8]) -> [u32; 3] {
    let nearest = yepidlaw::nearest(bytes, &mut [0; 256]).refusal;
    let even = if nearest == 0 { 0 } else { yepidlaw::even(bytes, &mut [0; 256], &mut [0; 8_192]).refusal };
    [nearest, even, yepidlaw::check(bytes, &mut [0; 17]).refusal]
}

fn reference_difference(got: &Answer, expected: &Answer) -> Option<String> {
    let number = field("number", &[got.number], &[u64::from(expected.number)]);
    number.or_else(|| (got != expected).then(|| "what was read".to_string()))
}

/// Comparisons of records; each input counts as one, with all its values and the numbers that the operations give.
struct Records(Comparison);

impl Records {
    fn new(name: &'static str) -> Records {
        Records(Comparison::new(name))
    }

    /// The engine gives what the reference gives; returns its number.
    fn alike(&mut self, bytes: &[u8]) -> u32 {
        let expected = Answer::of_reference(bytes);
        self.count(bytes, expected.number, engine_difference(&engine::read(bytes), &expected));
        expected.number
    }

    /// Both refuse it under this number, and nothing is read.
    fn refused(&mut self, bytes: &[u8], number: u32) {
        assert!((2..=4).contains(&number));
        self.stated(bytes, &Answer { number, record: None });
    }

    /// Both read the record as it was written, and give this number: 0, 5, 6 or 7.
    fn judged(&mut self, record: &Record, number: u32) {
        assert!(number == 0 || (5..=7).contains(&number));
        self.stated(&record.bytes(), &Answer { number, record: Some(record.clone()) });
    }

    fn stated(&mut self, bytes: &[u8], expected: &Answer) {
        let of_engine = engine_difference(&engine::read(bytes), expected).map(|difference| format!("engine, {difference}"));
        let of_reference =
            reference_difference(&Answer::of_reference(bytes), expected).map(|difference| format!("reference, {difference}"));
        self.count(bytes, expected.number, of_engine.or(of_reference));
    }

    fn count(&mut self, bytes: &[u8], number: u32, difference: Option<String>) {
        let input = self.0.seen();
        let difference = difference.or_else(|| operations_difference(operations_numbers(bytes), number)).or_else(|| job_difference(bytes));
        self.0.count(difference.map(|difference| format!("input {input} ({} bytes, {:?}): {difference}", bytes.len(), start(bytes))));
    }

    fn ended(self, expected: u64) -> bool {
        self.0.ended(expected)
    }
}

/// The largest DDL, M.
fn last_ddl(depth: u64) -> u64 {
    [255, 511, 1023][depth as usize - 8]
}

/// A sound record with so many items; in each section no two are equal, so that a misplaced one shows.
fn sound(depth: u64, lamps: u64, readings: u64, patches: u64) -> Record {
    Record {
        settings: vec![depth, 1, 2, 987, 654],
        lamps: (0..lamps).map(|i| 2000 - 259 * i).collect(),
        ddls: (0..readings).map(|i| last_ddl(depth) * i / (readings - 1)).collect(),
        luminances: (0..readings).map(|i| 66_051 + 4_000_037 * i).collect(),
        check: (0..patches).map(|i| 4_294_967_295 - 235_000_001 * i).collect(),
    }
}

/// Sound records of 30 bytes, the fewest, to 6,250, the most.
fn sound_records() -> [Record; 6] {
    [sound(8, 0, 2, 0), sound(8, 8, 2, 0), sound(10, 3, 5, 18), sound(9, 8, 37, 18), sound(8, 0, 256, 0), sound(10, 8, 1024, 18)]
}

type Change = fn(&mut RecordValues);

/// What is compared: each of these makes the values of a record those of another.
const CHANGES: [Change; 21] = [
    |values| values.refusal = 1,
    |values| values.depth += 1,
    |values| values.meter += 1,
    |values| values.class += 1,
    |values| values.reflectance += 1,
    |values| values.tolerance += 1,
    |values| values.lux += 1,
    |values| values.given -= 1,
    |values| values.settings[0] += 1,
    |values| values.settings[4] += 1,
    |values| values.sources -= 1,
    |values| values.sources = 9,
    |values| values.lamps[0] += 1,
    |values| values.lamps[7] += 1,
    |values| values.readings -= 1,
    |values| values.readings = 1025,
    |values| values.ddls[36] += 1,
    |values| values.luminances[36] += 1,
    |values| values.patches -= 1,
    |values| values.check[0] -= 1,
    |values| values.check[17] -= 1,
];

/// The comparison sees every change of the engine's values, of the reference's and of the operations' numbers.
fn differences_are_seen() -> bool {
    let mut all = Comparison::new("record: differences are seen");
    let record = sound(9, 8, 37, 18);
    let expected = Answer { number: 0, record: Some(record.clone()) };
    all.seen_changes(&engine::read(&record.bytes()), &CHANGES, |values| engine_difference(values, &expected));
    let mut other = record.clone();
    other.check[17] += 1;
    for got in [Answer { number: 5, record: Some(record) }, Answer { number: 0, record: None }, Answer { number: 0, record: Some(other) }] {
        all.seen_difference(reference_difference(&got, &expected));
    }
    for (all_three, number) in [(1, 0), (2, 0), (7, 0), (11, 0), (0, 2), (0, 7), (3, 2), (2, 3), (8, 7), (10, 5)] {
        all.seen_difference(operations_difference([all_three; 3], number));
    }
    for (nearest, check, number) in [(0, 1, 0), (0, 8, 0), (0, 11, 0), (8, 0, 0), (8, 12, 0), (10, 13, 0), (2, 0, 2), (7, 12, 7), (5, 6, 5)]
    {
        all.seen_difference(operations_difference([nearest, nearest, check], number));
    }
    for (nearest, even, number) in [(0, 11, 0), (8, 0, 0), (8, 11, 0), (10, 9, 0), (2, 0, 2), (2, 3, 2), (3, 2, 3), (5, 1, 5), (7, 8, 7)] {
        all.seen_difference(operations_difference([nearest, even, nearest], number));
    }
    all.ended(53)
}

pub fn results() -> Vec<bool> {
    let mut results = vec![differences_are_seen()];
    results.extend(sections::results());
    results.extend(values::results());
    results.extend(order::results());
    results.push(damaged::damaged_records());
    results
}
