//! Several conditions at once: 12 and 13 come after the numbers that a nearest table has, and only then is a check not measured.
use reference::engine::Engine;
use reference::record::Record;

use super::{expected, Answer, Lent, FAIL, NOT_MEASURED, PASS};
use crate::lent::Answers;
use crate::nearest_tests::order::{records, written};
use crate::random::Random;

/// Check readings without room light, with the number and the verdict that they give a sound job.
fn checks(reference: &Engine) -> Vec<(Vec<u64>, u32, u32)> {
    let fit = expected(&reference.gsdf, 20_000, 80_000);
    let with = |changes: &[(usize, u64)]| {
        let mut readings = fit.clone();
        changes.iter().for_each(|&(place, reading)| readings[place] = reading);
        readings
    };
    vec![
        (vec![], 0, NOT_MEASURED),
        (fit.clone(), 0, PASS),
        (with(&[(9, fit[8])]), 0, FAIL),
        (vec![10_000; 18], 13, 0),
        (with(&[(0, fit[17]), (17, fit[0])]), 13, 0),
        (vec![0; 18], 12, 0),
        (vec![4_294_967_295; 18], 12, 0),
        (with(&[(9, 499)]), 12, 0),
        (with(&[(0, 39_934_041)]), 12, 0),
        (with(&[(17, 499)]), 12, 0),
        // 12 and 13: the ends are too close, and another patch is outside the table.
        (with(&[(9, 499), (17, fit[0])]), 12, 0),
        (with(&[(0, fit[17]), (16, 39_934_041)]), 12, 0),
    ]
}

/// The records of the nearest table's order, each with every check and every way to write it.
pub fn lowest_number(reference: &Engine) -> bool {
    let mut random = Random::new(6);
    let mut all = Answers::new("check: order of refusals");
    let checks = checks(reference);
    for (record, of_panel) in records() {
        for (check, of_check, verdict) in &checks {
            let lowest = if of_panel == 0 { *of_check } else { of_panel };
            let record = Record { check: check.clone(), ..record.clone() };
            for (bytes, number) in written(&record, lowest) {
                for (places, number) in [(0, 1), (16, 1), (17, number), (40, number)] {
                    let lent = Lent::new(&mut random, &bytes, places);
                    let expected = Answer::of_reference(reference, &lent);
                    let difference = Answer::of_engine(&lent).difference(&expected);
                    let verdict = if number == 0 { *verdict } else { 0 };
                    let agrees = expected.result.refusal == number && expected.result.verdict == verdict;
                    all.count(&lent, difference.or_else(|| (!agrees).then(|| format!("should be {number}, verdict {verdict}"))));
                }
            }
        }
    }
    all.ended(8 * 8 * 12 * 6 * 4)
}
