//! Inputs that are made here and not stored, with the report of the reference.
use reference::engine::Engine;
use reference::report::{report, BUFFER};

use crate::jobs::{changed, checked_but_for, full, longest, small};
use crate::refused::{with_count, SECTIONS};

pub struct Case {
    pub name: String,
    pub bytes: Vec<u8>,
    pub report: Vec<u8>,
}

const LONG: usize = 100_000;

fn case(engine: &Engine, name: String, bytes: Vec<u8>) -> Case {
    Case { name, report: report(engine, &bytes), bytes }
}

/// Every prefix of a job with items in every section, and the job.
pub fn prefixes(engine: &Engine) -> Vec<Case> {
    let bytes = full(engine).bytes();
    (0..=bytes.len()).map(|length| case(engine, format!("prefix of {length} bytes"), bytes[..length].to_vec())).collect()
}

/// The job with every small count in place of each of its own.
pub fn counts(engine: &Engine) -> Vec<Case> {
    let counts = (0..SECTIONS.len()).flat_map(|section| (0..20).map(move |count| (section, count)));
    let named = |(section, count)| (format!("a count of {count} for section '{}'", SECTIONS[section]), with_count(engine, section, count));
    counts.map(named).map(|(name, bytes)| case(engine, name, bytes)).collect()
}

/// What the program must find wherever it stands: a pair of patches off by itself, a patch outside Table B-1, a lamp too bright, levels and luminances of a long sweep
/// that fall.
pub fn each_place(engine: &Engine) -> Vec<Case> {
    let mut cases = vec![];
    for (pair, thousandths) in (0..17).flat_map(|pair| [(pair, 80), (pair, -80)]) {
        let record = checked_but_for(small(), engine, pair, thousandths);
        cases.push(case(engine, format!("pair {pair} of patches alone off by {thousandths}"), record.bytes()));
    }
    for place in 0..18 {
        for luminance in [0, u64::from(u32::MAX)] {
            let record = changed(full(engine), |record| record.check[place] = luminance);
            cases.push(case(engine, format!("patch {place} of {luminance}"), record.bytes()));
        }
    }
    let longest = longest(engine);
    for place in 0..8 {
        let record = changed(longest.clone(), |record| record.lamps[place] = 2_001);
        cases.push(case(engine, format!("lamp {place} of 2,001"), record.bytes()));
    }
    let short = full(engine);
    for (record, place) in (1..4).map(|place| (&short, place)).chain((1..1_024).rev().step_by(73).map(|place| (&longest, place))) {
        let of = record.ddls.len();
        let equal = changed(record.clone(), |record| record.ddls[place] = record.ddls[place - 1]);
        cases.push(case(engine, format!("level {place} of {of} as the one before"), equal.bytes()));
        let falling = changed(record.clone(), |record| record.luminances[place] = record.luminances[place - 1] - 1);
        cases.push(case(engine, format!("reading {place} of {of} below the one before"), falling.bytes()));
    }
    cases
}

/// Bytes from a small generator (a linear congruence modulo 2^64, of which the high bits are taken).
fn noise(seed: u64, length: usize) -> Vec<u8> {
    let mut state = seed;
    let mut byte = || {
        state = state.wrapping_mul(6_364_136_223_846_793_005).wrapping_add(1_442_695_040_888_963_407);
        (state >> 56) as u8
    };
    (0..length).map(|_| byte()).collect()
}

/// 100,000 bytes: noise, noise after a first count, after a count of lamps and of readings, and the longest record with more behind it.
pub fn long(engine: &Engine) -> Vec<Case> {
    let record = longest(engine).bytes();
    let filled = |start: &[u8], seed: u64| [start, &noise(seed, LONG - start.len())].concat();
    let repeated: Vec<u8> = record.iter().copied().cycle().take(LONG).collect();
    let mut zeros = record.clone();
    zeros.resize(LONG, 0);
    let mut cases = vec![
        case(engine, "the longest record and noise, 100,000 bytes".to_string(), filled(&record, 1)),
        case(engine, "the longest record and zeros, 100,000 bytes".to_string(), zeros),
        case(engine, "the longest record again and again, 100,000 bytes".to_string(), repeated),
        case(engine, "the longest record and one byte".to_string(), filled(&record, 2)[..BUFFER].to_vec()),
    ];
    for seed in 3..8 {
        cases.push(case(engine, format!("noise {seed}, 100,000 bytes"), filled(&[], seed)));
        cases.push(case(engine, format!("noise {seed} after the settings' count, 100,000 bytes"), filled(&record[..2], seed)));
        cases.push(case(engine, format!("noise {seed} after the lamps, 100,000 bytes"), filled(&record[..30], seed)));
        cases.push(case(engine, format!("noise {seed} after the sweep's count, 100,000 bytes"), filled(&record[..32], seed)));
    }
    cases
}
