//! Sound records of all shapes, and what becomes of them by damage.
use std::collections::BTreeSet;

use reference::record::Record;

use super::{last_ddl, Records};
use crate::jobs::damage::damaged;
use crate::random::Random;

const SOUND: u64 = 10_000;
const DAMAGED: u64 = 100_000;
/// How often each answer has to come at least.
const LEAST: u64 = 500;

/// Now and then a sweep of nearly all DDLs, mostly one of a few.
fn sound_ddls(random: &mut Random, last: u64) -> Vec<u64> {
    let tries = [0, 1, 5, 40, 4_000][random.place(5)];
    let mut ddls = BTreeSet::from([0, last]);
    ddls.extend((0..random.below(tries + 1)).map(|_| random.below(last)));
    ddls.into_iter().collect()
}

fn sound_record(random: &mut Random) -> Record {
    let depth = 8 + random.below(3);
    let ddls = sound_ddls(random, last_ddl(depth));
    let mut luminances: Vec<u64> = ddls.iter().map(|_| random.luminance()).collect();
    luminances.sort_unstable();
    Record {
        settings: vec![depth, random.below(2), 1 + random.below(2), random.below(1_001), random.below(1_001)],
        lamps: (0..random.below(9)).map(|_| random.below(2_001)).collect(),
        check: (0..18 * random.below(2)).map(|_| random.luminance()).collect(),
        ddls,
        luminances,
    }
}

pub fn damaged_records() -> bool {
    let mut random = Random::new(1);
    let mut all = Records::new("record: sound and damaged");
    let mut answers = [0; 8];
    for _ in 0..SOUND {
        all.judged(&sound_record(&mut random), 0);
    }
    for _ in 0..DAMAGED {
        let record = sound_record(&mut random);
        answers[all.alike(&damaged(&mut random, record)) as usize] += 1;
    }
    println!("record: of the damaged, answered 0 to 7: {answers:?}");
    let often = [0, 2, 3, 4, 5, 6, 7].iter().all(|&number: &usize| LEAST <= answers[number]);
    if !often {
        println!("record: each answer but 1 should come {LEAST} times");
    }
    all.ended(SOUND + DAMAGED) && often
}
