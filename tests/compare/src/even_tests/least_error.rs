//! The least allowed error that leaves a display a table, and one part in a thousand less.
use reference::engine::{Engine, Sound};

use super::{wrong_or_other, Lent, ENTRIES, WORDS};
use crate::jobs::draw_even;
use crate::lent::Answers;
use crate::random::Random;

const DISPLAYS: u64 = 300;

/// The largest error of a nearest level, in parts per thousand of the target, rounded up.
fn least_error(job: &Sound) -> u64 {
    let error = |target: u64| {
        let nearest = job.curve.iter().map(|luminance| luminance.abs_diff(target)).min().expect("a curve has levels");
        (1_000 * nearest + target - 1) / target
    };
    job.targets.iter().map(|&target| error(target)).max().expect("there are targets")
}

pub fn least_errors(reference: &Engine) -> bool {
    let mut random = Random::new(26);
    let mut all = Answers::new("even: least allowed error");
    let mut displays = 0;
    while displays < DISPLAYS {
        let mut job = match reference.sound(&draw_even(&mut random, &reference.gsdf).bytes) {
            Ok(job) => job,
            Err(_) => continue,
        };
        let least = least_error(&job);
        if least == 0 {
            continue;
        }
        displays += 1;
        for (tolerance, number) in [(least, 0), (least - 1, 11)] {
            job.record.settings[4] = tolerance;
            let lent = Lent::new(&mut random, &job.record.bytes(), ENTRIES, WORDS);
            all.count(&lent.table, wrong_or_other(reference, &lent, number));
        }
    }
    all.ended(2 * DISPLAYS)
}
