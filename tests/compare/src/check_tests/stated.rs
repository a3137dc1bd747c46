//! What document 01 says of single checks outright, or by its table and a few sums.
use reference::contrast::{Pair, PAIRS};
use reference::engine::Engine;
use reference::gsdf::Gsdf;
use reference::record::Record;
use reference::target::Range;

use super::{expected, job, without, Answer, Lent, FAIL, NOT_MEASURED, PASS};
use crate::comparison::Comparison;
use crate::lent::Answers;
use crate::nearest_tests;
use crate::random::Random;
use crate::record_tests::order::example_records;

/// Something that an answer should have.
#[derive(Clone, Copy, Debug)]
enum Fact {
    Number(u32),
    Verdict(u32),
    /// The deviation of a pair.
    Deviation(usize, i32),
    /// The deviation of so many pairs from the first on.
    First(usize, i32),
    /// The deviation of a pair that is beyond the limits of both classes; all others are within both.
    Alone(usize, i32),
}

use Fact::{Alone, Deviation, First, Number, Verdict};

impl Fact {
    fn holds(&self, answer: &mut Answer) -> bool {
        match *self {
            Number(number) => answer.result.refusal == number,
            Verdict(verdict) => answer.result.refusal == 0 && answer.result.verdict == verdict,
            Deviation(pair, deviation) => answer.lent.slice()[pair] == deviation,
            First(pairs, deviation) => answer.lent.slice()[..pairs].iter().all(|&other| other == deviation),
            Alone(pair, deviation) => {
                let deviations = &answer.lent.slice()[..PAIRS];
                let others_pass = (0..PAIRS).all(|i| i == pair || (-100..100).contains(&deviations[i]));
                deviations[pair] == deviation && !(-200..=200).contains(&deviation) && others_pass
            }
        }
    }
}

/// A job, how many places are lent, and the facts.
type Example = (String, Vec<u8>, usize, Vec<Fact>);

fn example(name: &str, record: Record, facts: &[Fact]) -> Example {
    (name.to_string(), record.bytes(), PAIRS, facts.to_vec())
}

/// The examples of the refusal table; that of 11 is sound for this operation.
fn refusal_table() -> Vec<Example> {
    let mut examples = vec![];
    for (name, bytes) in example_records() {
        let fact = match name.parse().unwrap_or(0) {
            0 | 11 => Verdict(NOT_MEASURED),
            number => Number(number),
        };
        examples.push((format!("{name}, 16 places"), bytes.clone(), 16, vec![Number(1)]));
        examples.push((name.to_string(), bytes, PAIRS, vec![fact]));
    }
    examples
}

/// The marked examples, of the reference alone: no record has such patches.
fn marked_examples() -> bool {
    let mut all = Comparison::new("check: marked examples, reference");
    let mut pair = |[p, s, c, h]: [u64; 4], deviation: i128, primary: bool, secondary: bool| {
        let pair = Pair::new(p, s, c, h);
        let holds = pair.deviation() == deviation && pair.passes(1) == primary && pair.passes(2) == secondary;
        all.count((!holds).then(|| format!("{p} to {s}, expected {c} to {h}: {}", pair.deviation())));
    };
    pair([9, 31, 1, 3], 100, true, true);
    pair([900, 3_101, 1, 3], 100, false, true);
    pair([11_000, 10_999, 10_123, 10_370], -1_004, false, false);
    all.ended(3)
}

/// What is expected was measured, but for one patch.
fn changed(gsdf: &Gsdf, place: usize, luminance: impl Fn(&[u64]) -> u64) -> Vec<u64> {
    let mut luminances = expected(gsdf, 20_000, 80_000);
    luminances[place] = luminance(&luminances);
    luminances
}

/// Patches as expected deviate by 0, and equal neighbours by the whole contrast. A unit less than expected is less than 0, so it is rounded to −1.
fn deviations(gsdf: &Gsdf) -> Vec<Example> {
    let mut examples = vec![];
    for class in [1, 2] {
        let fit = job(0, class, &[], expected(gsdf, 20_000, 80_000));
        examples.push(example("as expected", fit, &[Verdict(PASS), First(PAIRS, 0)]));
        let flat = |first: u64, last: u64| {
            let mut luminances = vec![first; 18];
            luminances[17] = last;
            job(1, class, &[], luminances)
        };
        examples.push(example("equal patches", flat(500, 39_934_040), &[Verdict(FAIL), First(16, -1_000)]));
        examples.push(example("equal patches", flat(10_000, 2_560_000), &[Verdict(FAIL), First(16, -1_000)]));
        for pair in 0..PAIRS - 1 {
            let next = pair + 1;
            let equal = changed(gsdf, next, |luminances| luminances[pair]);
            examples.push(example("equal neighbours", job(0, class, &[], equal), &[Verdict(FAIL), Deviation(pair, -1_000)]));
            let less = changed(gsdf, next, |luminances| luminances[next] - 1);
            let facts = [Verdict(PASS), Deviation(pair, -1), Deviation(next, 0)];
            examples.push(example("a unit less", job(0, class, &[], less), &facts));
            let more = changed(gsdf, next, |luminances| luminances[next] + 1);
            let facts = [Verdict(PASS), Deviation(pair, 0), Deviation(next, -1)];
            examples.push(example("a unit more", job(0, class, &[], more), &facts));
        }
    }
    examples
}

/// The same panel by both meters: 2,400 units of room light are added for the contact meter and for no other.
fn meters(gsdf: &Gsdf) -> Vec<Example> {
    let fit = expected(gsdf, 20_000, 80_000);
    let as_expected = [Verdict(PASS), First(PAIRS, 0)];
    let mut examples = vec![];
    for class in [1, 2] {
        let panel = |meter, lamps: &[u64], readings: &[u64]| job(meter, class, lamps, readings.to_vec());
        let lamps = [2_000, 0, 400];
        examples.push(example("contact, dark", panel(0, &[], &fit), &as_expected));
        examples.push(example("telescopic, dark", panel(1, &[], &fit), &as_expected));
        examples.push(example("telescopic, lit", panel(1, &lamps, &fit), &as_expected));
        examples.push(example("contact, lit", panel(0, &lamps, &without(2_400, &fit)), &as_expected));
        // The light that is there twice, or not at all, is seen in the contrast of dark patches.
        let twice = expected(gsdf, 102, 30_000);
        examples.push(example("contact, light twice", panel(0, &lamps, &twice), &[Verdict(FAIL)]));
        let missing = without(2_400, &expected(gsdf, 3_200, 30_000));
        examples.push(example("telescopic, light missing", panel(1, &lamps, &missing), &[Verdict(FAIL)]));
    }
    examples
}

/// From J(500) = 102 to 10,102, whose luminance is 18,868 + floor(365 × 2 / 100), and to the indices around it; and the other way.
fn least_range(gsdf: &Gsdf) -> Vec<Example> {
    let mut examples = vec![];
    let narrow = |first, last| {
        let mut luminances = expected(gsdf, 102, 10_102);
        luminances[0] = first;
        luminances[PAIRS] = last;
        job(1, 1, &[40], luminances)
    };
    for (first, last, fact) in [
        (500, 18_875, Number(0)),
        (500, 18_874, Number(13)),
        (500, 18_878, Number(0)),
        (500, 500, Number(13)),
        (39_934_040, 39_934_040, Number(13)),
        (18_875, 500, Number(13)),
        (18_874, 500, Number(13)),
        (18_878, 500, Number(13)),
        (18_875, 18_874, Number(13)),
        (39_934_040, 500, Number(13)),
        (500, 39_934_040, Number(0)),
        // From 92,300 and from the next index to 102,300.
        (20_852_060, 39_934_040, Number(0)),
        (20_852_061, 39_934_040, Number(13)),
    ] {
        examples.push(example(&format!("{first} to {last}"), narrow(first, last), &[fact]));
    }
    examples
}

/// Sums that 32 bits do not hold: 2^32 − 16,000,000 and a check that passes, or the largest reading.
fn large_sums(gsdf: &Gsdf) -> Vec<Example> {
    let bright = |meter, check| Record {
        settings: vec![10, meter, 1, 1_000, 0],
        lamps: vec![2_000; 8],
        ddls: vec![0, 1_023],
        luminances: vec![500, 23_934_040],
        check,
    };
    let wrapping: Vec<u64> = expected(gsdf, 20_000, 80_000).iter().map(|luminance| 4_278_967_296 + luminance).collect();
    let fit = expected(gsdf, 90_000, 102_300);
    vec![
        example("brightest room", bright(0, without(16_000_000, &fit)), &[Verdict(PASS), First(PAIRS, 0)]),
        example("brightest room, telescopic", bright(1, fit.clone()), &[Verdict(PASS), First(PAIRS, 0)]),
        example("a check in 32 bits", bright(0, wrapping.clone()), &[Number(12)]),
        example("the same, telescopic", bright(1, wrapping), &[Number(12)]),
        example("largest readings", bright(0, vec![4_294_967_295; 18]), &[Number(12)]),
        example("largest readings, telescopic", bright(1, vec![4_294_967_295; 18]), &[Number(12)]),
    ]
}

/// Middle patches at both ends of the table, between ends as close and as far apart as can be.
fn extremes(gsdf: &Gsdf) -> Vec<Example> {
    let mut examples = vec![];
    for (jlo, jhi) in [(92_300, 102_300), (102, 102_300), (102, 10_102), (50_000, 60_000)] {
        for dark in 0..2 {
            let mut luminances = expected(gsdf, jlo, jhi);
            for (place, luminance) in luminances.iter_mut().enumerate().take(PAIRS).skip(1) {
                *luminance = if place % 2 == dark { 500 } else { 39_934_040 };
            }
            for class in [1, 2] {
                examples.push(example("extremes", job(1, class, &[], luminances.clone()), &[Verdict(FAIL)]));
            }
        }
    }
    examples
}

/// 17 patches at even distances of the index, with the one at this place twice, the second time less by so many units.
fn with_low_pair(gsdf: &Gsdf, jlo: u64, jhi: u64, pair: usize, fall: u64) -> Vec<u64> {
    let mut luminances = Range { jlo, jhi }.targets(gsdf, 16);
    luminances.insert(pair + 1, luminances[pair] - fall);
    luminances
}

/// All pairs but one are so many hundredths of what they should be, by the index; that one has the rest.
fn with_high_pair(gsdf: &Gsdf, jlo: u64, jhi: u64, pair: usize, hundredths: u64) -> Vec<u64> {
    let distance = |pairs: usize| (jhi - jlo) * pairs as u64 * hundredths / 1_700;
    let index = |patch: usize| if patch <= pair { jlo + distance(patch) } else { jhi - distance(PAIRS - patch) };
    (0..=PAIRS).map(|patch| gsdf.luminance(index(patch))).collect()
}

/// The deviations of a high pair by its place: with 94 hundredths from 40,000 on, and with 91 from 80,000 on.
const HIGH: [i32; PAIRS] = [892, 902, 910, 917, 922, 926, 929, 931, 933, 934, 935, 935, 935, 936, 935, 935, 934];
const HIGHER: [i32; PAIRS] =
    [1_431, 1_430, 1_431, 1_431, 1_434, 1_432, 1_432, 1_433, 1_435, 1_433, 1_432, 1_433, 1_435, 1_432, 1_433, 1_433, 1_432];

/// One pair fails and no other.
fn alone(gsdf: &Gsdf) -> Vec<Example> {
    let mut checks = vec![
        (8, "equal", with_low_pair(gsdf, 20_000, 80_000, 8, 0), -1_000),
        (8, "falling", with_low_pair(gsdf, 20_000, 80_000, 8, 1), -1_001),
        (8, "high", with_high_pair(gsdf, 20_000, 80_000, 8, 94), 930),
    ];
    for pair in 0..PAIRS {
        checks.push((pair, "equal", with_low_pair(gsdf, 40_000, 102_300, pair, 0), -1_000));
        checks.push((pair, "falling", with_low_pair(gsdf, 40_000, 102_300, pair, 1), -1_001));
        checks.push((pair, "high", with_high_pair(gsdf, 40_000, 102_300, pair, 94), HIGH[pair]));
        checks.push((pair, "higher", with_high_pair(gsdf, 80_000, 102_300, pair, 91), HIGHER[pair]));
    }
    let mut examples = vec![];
    for (pair, kind, luminances, deviation) in checks {
        for (meter, class, added) in [(0, 1, 2_400), (0, 2, 2_400), (1, 1, 0), (1, 2, 0)] {
            let record = job(meter, class, &[2_000, 0, 400], without(added, &luminances));
            examples.push(example(&format!("pair {pair} {kind}"), record, &[Verdict(FAIL), Alone(pair, deviation)]));
        }
    }
    examples
}

/// A check that passes, one that fails and none, and each with many zero bytes after it.
fn bytes_after(gsdf: &Gsdf) -> Vec<Example> {
    let fit = expected(gsdf, 20_000, 80_000);
    let unfit = with_low_pair(gsdf, 20_000, 80_000, 8, 0);
    let mut examples = vec![];
    for (check, verdict) in [(fit, PASS), (unfit, FAIL), (vec![], NOT_MEASURED)] {
        let record = job(1, 1, &[40], check);
        for bytes in [20_000, 65_536, 1_048_576] {
            examples.push((format!("{bytes} bytes more"), [record.bytes(), vec![0; bytes]].concat(), PAIRS, vec![Number(4)]));
        }
        examples.push(example("no byte more", record, &[Verdict(verdict)]));
    }
    examples
}

/// Each fact of engine and reference, and the engine's whole answer against the reference's.
fn compare(reference: &Engine, name: &'static str, examples: Vec<Example>, expected: u64) -> bool {
    let mut random = Random::new(11);
    let mut all = Comparison::new(name);
    for (name, bytes, places, facts) in examples {
        let lent = Lent::new(&mut random, &bytes, places);
        let mut answers = [Answer::of_engine(&lent), Answer::of_reference(reference, &lent)];
        all.facts(&name, &mut answers, &facts, Fact::holds);
        all.count(answers[0].difference(&answers[1]).map(|difference| format!("{name}, {difference}")));
    }
    all.ended(expected)
}

/// The examples of the nearest table, and its job with every reflectance.
fn nearest_examples(reference: &Engine) -> bool {
    let mut random = Random::new(12);
    let mut all = Answers::new("check: examples of the nearest table");
    let reflectances = (0..=1_000).map(|reflectance| nearest_tests::every::job(reflectance).bytes());
    for bytes in nearest_tests::stated::records().into_iter().chain(reflectances) {
        let lent = Lent::new(&mut random, &bytes, PAIRS);
        all.count(&lent, Answer::of_engine(&lent).difference(&Answer::of_reference(reference, &lent)));
    }
    all.ended(14 + 11 + 35 + 5 + 3 + 13 + 20 + 8 + 1_001)
}

pub fn results(reference: &Engine) -> Vec<bool> {
    let gsdf = &reference.gsdf;
    vec![
        marked_examples(),
        compare(reference, "check: refusal table", refusal_table(), 3 * 26),
        compare(reference, "check: deviations", deviations(gsdf), 2 * (3 + 2 * 6 + 16 * (3 + 2 * 8))),
        compare(reference, "check: meters", meters(gsdf), 2 * (6 + 2 * 10)),
        compare(reference, "check: least range", least_range(gsdf), 3 * 13),
        compare(reference, "check: large sums", large_sums(gsdf), 6 + 2 * 8),
        compare(reference, "check: extremes", extremes(gsdf), 3 * 16),
        compare(reference, "check: one pair fails alone", alone(gsdf), (3 + 17 * 4) * 4 * 5),
        compare(reference, "check: bytes after the record", bytes_after(gsdf), 3 * 4 * 3),
        nearest_examples(reference),
    ]
}
