//! The nearest table of a job record, engine against reference, and both against what document 01 says where it says it outright.
pub mod every;
mod generated;
pub mod order;
pub mod stated;

use compare::yepidlaw::{self, Nearest};
use reference::engine::{Engine, Sound};
use reference::nearest::Table;

use crate::comparison::{field, Comparison};
use crate::jobs;
use crate::lent;
use crate::random::Random;
pub use generated::results as generated_results;

const ENTRIES: usize = 256;

type Lent = lent::Lent<u16>;

/// What the operation gives: its result, and what was lent as it is then.
#[derive(Clone)]
struct Answer {
    result: Nearest,
    lent: Lent,
}

impl Answer {
    fn of_engine(lent: &Lent) -> Answer {
        let mut lent = lent.clone();
        let (record, table) = lent.parts();
        let result = yepidlaw::nearest_of_writable(record, table);
        Answer { result, lent }
    }

    fn refused(number: u32, lent: &Lent) -> Answer {
        let result = Nearest { refusal: number, jlo: 0, jhi: 0, range: 0, room_high: 0, error: 0 };
        Answer { result, lent: lent.clone() }
    }

    fn made(job: &Sound, table: &Table, lent: &Lent) -> Answer {
        let narrow = |value: u64| u32::try_from(value).expect("a result has 32 bits");
        let result = Nearest {
            refusal: 0,
            jlo: narrow(job.range.jlo),
            jhi: narrow(job.range.jhi),
            range: narrow(job.range.width()),
            room_high: u32::from(job.room_high),
            error: narrow(table.largest_error),
        };
        let mut lent = lent.clone();
        for (entry, &ddl) in lent.slice()[..ENTRIES].iter_mut().zip(&table.entries) {
            *entry = ddl as u16;
        }
        Answer { result, lent }
    }

    fn of_reference(reference: &Engine, lent: &Lent) -> Answer {
        match reference.nearest(lent.record(), lent.entries()) {
            Err(number) => Answer::refused(number, lent),
            Ok((job, table)) => Answer::made(&job, &table, lent),
        }
    }

    /// The first place where this is not the answer expected.
    fn difference(&self, expected: &Answer) -> Option<String> {
        let number = |name, got: u32, expected: u32| field(name, &[got], &[u64::from(expected)]);
        let (got, result) = (&self.result, &expected.result);
        number("number", got.refusal, result.refusal)
            .or_else(|| number("Jlo", got.jlo, result.jlo))
            .or_else(|| number("Jhi", got.jhi, result.jhi))
            .or_else(|| number("N", got.range, result.range))
            .or_else(|| number("room mark", got.room_high, result.room_high))
            .or_else(|| number("largest error", got.error, result.error))
            .or_else(|| self.lent.difference(&expected.lent))
    }
}

type Change = fn(&mut Answer);

/// Each of these makes an answer another one.
const CHANGES: [Change; 17] = [
    |answer| answer.result.refusal = 10,
    |answer| answer.result.jlo += 1,
    |answer| answer.result.jhi -= 1,
    |answer| answer.result.range += 1,
    |answer| answer.result.room_high ^= 1,
    |answer| answer.result.error += 1,
    |answer| answer.lent.slice()[0] ^= 1,
    |answer| answer.lent.slice()[128] ^= 256,
    |answer| answer.lent.slice()[255] ^= 1,
    |answer| answer.lent.slice()[256] ^= 1,
    |answer| answer.lent.slice()[299] ^= 32_768,
    |answer| answer.lent.memory.all[answer.lent.memory.first - 1] ^= 1,
    |answer| answer.lent.memory.all[answer.lent.memory.first + 300] ^= 1,
    |answer| answer.lent.memory.all.truncate(answer.lent.memory.first + 299),
    |answer| answer.lent.bytes[0] ^= 1,
    |answer| answer.lent.bytes[1] ^= 128,
    |answer| *answer.lent.bytes.last_mut().expect("a record has bytes") ^= 1,
];

/// The comparison sees every change of an answer.
fn differences_are_seen(reference: &Engine) -> bool {
    let mut all = Comparison::new("nearest: differences are seen");
    let (_, bytes) = &crate::record_tests::order::example_records()[0];
    let lent = Lent::new(&mut Random::new(0), bytes, 300);
    let expected = Answer::of_reference(reference, &lent);
    all.seen_changes(&expected, &CHANGES, |answer| answer.difference(&expected));
    all.ended(18)
}

pub fn results(reference: &Engine) -> Vec<bool> {
    let mut results = vec![differences_are_seen(reference)];
    results.extend(stated::results(reference));
    results.push(order::lowest_number(reference));
    results.extend(every::results(reference));
    results.extend(generated_results(reference, jobs::COUNT, jobs::SEED));
    results
}
