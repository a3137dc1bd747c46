//! The contrast check of a job record, engine against reference, and both against what document 01 says where it says it outright.
mod alone;
mod every;
mod generated;
mod limits;
mod order;
mod stated;
mod whole;

use compare::yepidlaw::{self, Check};
use reference::contrast::{Contrast, PAIRS};
use reference::engine::Engine;
use reference::gsdf::Gsdf;
use reference::record::Record;
use reference::target::Range;

use crate::comparison::{field, Comparison};
use crate::jobs;
use crate::lent;
use crate::random::Random;
pub use generated::results as generated_results;

const NOT_MEASURED: u32 = 0;
const PASS: u32 = 1;
const FAIL: u32 = 2;

type Lent = lent::Lent<i32>;

/// What the operation gives: its result, and what was lent as it is then.
#[derive(Clone)]
struct Answer {
    result: Check,
    lent: Lent,
}

impl Answer {
    fn of_engine(lent: &Lent) -> Answer {
        let mut lent = lent.clone();
        let (record, deviations) = lent.parts();
        let result = yepidlaw::check_of_writable(record, deviations);
        Answer { result, lent }
    }

    fn refused(number: u32, lent: &Lent) -> Answer {
        Answer { result: Check { refusal: number, verdict: 0 }, lent: lent.clone() }
    }

    fn made(contrast: Option<&Contrast>, lent: &Lent) -> Answer {
        let mut lent = lent.clone();
        let verdict = match contrast {
            None => NOT_MEASURED,
            Some(contrast) => {
                for (place, &deviation) in lent.slice()[..PAIRS].iter_mut().zip(&contrast.deviations) {
                    *place = i32::try_from(deviation).expect("a deviation has 32 bits");
                }
                if contrast.passes {
                    PASS
                } else {
                    FAIL
                }
            }
        };
        Answer { result: Check { refusal: 0, verdict }, lent }
    }

    fn of_reference(reference: &Engine, lent: &Lent) -> Answer {
        match reference.check(lent.record(), lent.entries()) {
            Err(number) => Answer::refused(number, lent),
            Ok((_, contrast)) => Answer::made(contrast.as_ref(), lent),
        }
    }

    /// The first place where this is not the answer expected.
    fn difference(&self, expected: &Answer) -> Option<String> {
        let (got, result) = (&self.result, &expected.result);
        field("number", &[got.refusal], &[result.refusal])
            .or_else(|| field("verdict", &[got.verdict], &[result.verdict]))
            .or_else(|| self.lent.difference(&expected.lent))
    }
}

/// A sound job of depth 8 with these check readings. A0 is the sum of the lamps.
fn job(meter: u64, class: u64, lamps: &[u64], check: Vec<u64>) -> Record {
    Record { settings: vec![8, meter, class, 1, 0], lamps: lamps.to_vec(), ddls: vec![0, 255], luminances: vec![500, 2_560_000], check }
}

/// What is expected of 18 patches between two indices.
fn expected(gsdf: &Gsdf, jlo: u64, jhi: u64) -> Vec<u64> {
    Range { jlo, jhi }.targets(gsdf, PAIRS as u64)
}

/// The readings of these luminances without the room light.
fn without(added: u64, luminances: &[u64]) -> Vec<u64> {
    luminances.iter().map(|luminance| luminance - added).collect()
}

/// What is wrong with the engine's answer to a record that has this verdict.
fn judged(random: &mut Random, reference: &Engine, record: &Record, verdict: u32) -> Option<String> {
    let places = random.one_of(&[17, 18, 40]);
    let lent = Lent::new(random, &record.bytes(), places);
    let answer = Answer::of_engine(&lent);
    let stated = (answer.result != Check { refusal: 0, verdict }).then(|| format!("the engine's verdict should be {verdict}"));
    stated.or_else(|| answer.difference(&Answer::of_reference(reference, &lent)))
}

type Change = fn(&mut Answer);

/// Each of these makes an answer another one.
const CHANGES: [Change; 15] = [
    |answer| answer.result.refusal = 12,
    |answer| answer.result.verdict = NOT_MEASURED,
    |answer| answer.result.verdict = FAIL,
    |answer| answer.lent.slice()[0] += 1,
    |answer| answer.lent.slice()[8] ^= 65_536,
    |answer| answer.lent.slice()[8] ^= i32::MIN,
    |answer| answer.lent.slice()[16] -= 1,
    |answer| answer.lent.slice()[17] ^= 1,
    |answer| answer.lent.slice()[39] ^= i32::MIN,
    |answer| answer.lent.memory.all[answer.lent.memory.first - 1] ^= 1,
    |answer| answer.lent.memory.all[answer.lent.memory.first + 40] ^= 1,
    |answer| answer.lent.memory.all.truncate(answer.lent.memory.first + 39),
    |answer| answer.lent.bytes[0] ^= 1,
    |answer| answer.lent.bytes[1] ^= 128,
    |answer| *answer.lent.bytes.last_mut().expect("a record has bytes") ^= 1,
];

/// The comparison sees every change of an answer.
fn differences_are_seen(reference: &Engine) -> bool {
    let mut all = Comparison::new("check: differences are seen");
    let record = job(0, 1, &[], expected(&reference.gsdf, 20_000, 80_000));
    let lent = Lent::new(&mut Random::new(0), &record.bytes(), 40);
    let expected = Answer::of_reference(reference, &lent);
    all.count((expected.result.verdict != PASS).then(|| "should pass".to_string()));
    all.seen_changes(&expected, &CHANGES, |answer| answer.difference(&expected));
    all.ended(17)
}

pub fn results(reference: &Engine) -> Vec<bool> {
    let mut results = vec![differences_are_seen(reference)];
    results.extend(stated::results(reference));
    results.push(order::lowest_number(reference));
    results.extend(every::results(reference));
    results.extend(limits::results(reference));
    results.push(alone::far_off(reference));
    results.extend(whole::results(reference));
    results.extend(generated_results(reference, jobs::COUNT, jobs::SEED));
    results
}
