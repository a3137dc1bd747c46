//! Every length of the lent slice, and every reflectance.
use reference::engine::Engine;
use reference::record::Record;

use super::{Answer, Lent, ENTRIES};
use crate::lent::Answers;
use crate::random::Random;
use crate::record_tests::order::example_records;

/// The examples of the refusal table, each with slices around the least length and around the end of 16 bits.
fn lengths(reference: &Engine) -> bool {
    let mut random = Random::new(4);
    let mut all = Answers::new("nearest: every length");
    for (name, bytes) in example_records() {
        let of_record = name.parse().ok().filter(|number| (2..=10).contains(number)).unwrap_or(0);
        for entries in (0..=258).chain([65_535, 65_536, 70_000]) {
            let number = if entries < ENTRIES { 1 } else { of_record };
            let lent = Lent::new(&mut random, &bytes, entries);
            let expected = Answer::of_reference(reference, &lent);
            let stated = (expected.result.refusal != number).then(|| format!("should be {number}"));
            all.count(&lent, Answer::of_engine(&lent).difference(&expected).or(stated));
        }
    }
    all.ended(13 * 262)
}

/// 2,999 lux: 4 × A0 is the first reading at Rd 500, and F(M) is T(1023) at Rd 1,000.
pub fn job(reflectance: u64) -> Record {
    Record {
        settings: vec![8, 0, 1, reflectance, 0],
        lamps: vec![1_997, 3, 999],
        ddls: vec![0, 255],
        luminances: vec![5_998_000, 36_935_040],
        check: vec![],
    }
}

/// Every Rd; each brings F(0) and F(M) to other indices.
fn reflectances(reference: &Engine) -> bool {
    let mut random = Random::new(5);
    let mut all = Answers::new("nearest: every reflectance");
    let mut before = (0, 0);
    for reflectance in 0..=1_000 {
        let lent = Lent::new(&mut random, &job(reflectance).bytes(), ENTRIES);
        let expected = Answer::of_reference(reference, &lent);
        let result = expected.result;
        let sound = result.refusal == 0 && before.0 < result.jlo && before.1 < result.jhi;
        let marked = result.room_high == u32::from(500 < reflectance);
        let stated = (!sound || !marked).then(|| format!("not as it should be with Rd {reflectance}: {result:?}"));
        all.count(&lent, Answer::of_engine(&lent).difference(&expected).or(stated));
        before = (result.jlo, result.jhi);
    }
    all.ended(1_001)
}

pub fn results(reference: &Engine) -> Vec<bool> {
    vec![lengths(reference), reflectances(reference)]
}
