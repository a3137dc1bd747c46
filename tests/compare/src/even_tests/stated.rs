//! What document 01 says of single jobs outright, or by its table and a few sums.
use reference::engine::Engine;
use reference::even::step_deviation;
use reference::gsdf::Gsdf;
use reference::target::Range;

use super::{display, examples, wrong, Answer, Lent, ENTRIES, WORDS};
use crate::comparison::Comparison;
use crate::lent::Answers;
use crate::nearest_tests;
use crate::random::Random;

/// Something that an answer should have.
#[derive(Clone, Copy, Debug)]
enum Fact {
    Number(u32),
    WorstStep(u64),
    /// Each entry is so many times its P-value.
    Times(u16),
    /// The entry at a P-value.
    Entry(usize, u16),
}

use Fact::{Entry, Number, Times, WorstStep};

impl Fact {
    fn holds(&self, answer: &mut Answer) -> bool {
        let entries = answer.lent.table.slice();
        match *self {
            Number(number) => answer.result.refusal == number,
            WorstStep(deviation) => answer.result.refusal == 0 && answer.result.worst_step == deviation,
            Times(levels) => (0..256).all(|p| entries[usize::from(p)] == levels * p),
            Entry(p, ddl) => entries[p] == ddl,
        }
    }
}

/// A job, how many entries and words are lent, and the facts.
type Example = (String, Vec<u8>, [usize; 2], Vec<Fact>);

const LEAST: [usize; 2] = [ENTRIES, WORDS];

/// The examples of the refusal table, with enough lent and with too little.
fn refusal_table() -> Vec<Example> {
    let mut table = vec![];
    for (name, bytes, number) in examples() {
        for lent in [[255, WORDS], [ENTRIES, 8_191], [255, 8_191], [0, 0]] {
            table.push((format!("{name}, {lent:?}"), bytes.clone(), lent, vec![Number(1)]));
        }
        table.push((name, bytes, LEAST, vec![Number(number)]));
    }
    table
}

/// The marked examples, of the reference; those of the engine are among the small problems.
fn marked_examples() -> bool {
    let mut all = Comparison::new("even: marked examples, reference");
    for (f, g, deviation) in [(22, 21, 48), (0, 17, 1_000)] {
        let got = step_deviation(f, g);
        all.count((got != deviation).then(|| format!("{f} for {g}: {got}")));
    }
    all.ended(2)
}

/// Indices that are the last with their luminance: from J(500), and such that N is large, usual, or the least.
const RANGES: [Range; 4] = [
    Range { jlo: 102, jhi: 102_300 },
    Range { jlo: 8_072, jhi: 80_000 },
    Range { jlo: 102, jhi: 10_102 },
    Range { jlo: 92_300, jhi: 102_300 },
];

/// Meter, lamps and A.
const ROOMS: [(u64, &[u64], u64); 3] = [(0, &[], 0), (0, &[100, 0, 300], 400), (1, &[400], 0)];

/// Each target is the luminance of one level, of two or of four, so that no step deviates; the lowest of them are the even table.
fn exact(gsdf: &Gsdf) -> Vec<Example> {
    let mut examples = vec![];
    for (depth, levels) in [(8, 1), (9, 2), (10, 4)] {
        for (range, (meter, lamps, added)) in RANGES.into_iter().flat_map(|range| ROOMS.map(|room| (range, room))) {
            let targets = range.targets(gsdf, 255);
            let readings: Vec<u64> = (0..1 << depth).map(|d: usize| targets[d / levels] - added).collect();
            for tolerance in [0, 1, 150, 1_000] {
                let record = display(depth, meter, lamps, tolerance, readings.clone());
                examples.push((format!("{range:?}"), record.bytes(), LEAST, vec![Number(0), WorstStep(0), Times(levels as u16)]));
            }
        }
    }
    // The brightest room: eight lamps of 2,000 lux and the largest reflectance.
    let readings: Vec<u64> = RANGES[3].targets(gsdf, 255).iter().map(|target| target - 16_000_000).collect();
    for tolerance in [0, 1, 150, 1_000] {
        let mut record = display(8, 0, &[2_000; 8], tolerance, readings.clone());
        record.settings[3] = 1_000;
        examples.push((format!("A = 16,000,000, error {tolerance}"), record.bytes(), LEAST, vec![Number(0), WorstStep(0), Times(1)]));
    }
    examples
}

/// At the targets, but for the level of one P-value, which is off by so many units. Both steps beside it deviate; at the ends there is one.
fn off_at(targets: &[u64], p: usize, brighter: bool, units: u64) -> (Vec<u64>, u64) {
    let mut readings = targets.to_vec();
    readings[p] = if brighter { readings[p] + units } else { readings[p] - units };
    let deviation = |g: u64| (1_000 * units + g - 1) / g;
    let steps = [p.checked_sub(1), (p < 255).then_some(p)];
    let worst = steps.into_iter().flatten().map(|step| deviation(targets[step + 1] - targets[step])).max();
    (readings, worst.expect("a P-value has a step beside it"))
}

/// One unit and as many as are allowed at each P-value, and one more, with an error that no other level keeps. The ends are moved up by less than an index is wide.
fn off_by_units(gsdf: &Gsdf) -> Vec<Example> {
    let mut examples = vec![];
    let range = Range { jlo: 50_000, jhi: 101_000 };
    let targets = range.targets(gsdf, 255);
    for p in 0..ENTRIES {
        let most = 2 * targets[p] / 1_000;
        for brighter in [false, true] {
            let units = match p {
                0 | 255 if !brighter => continue,
                0 => vec![1, gsdf.luminance(range.jlo + 1) - targets[0] - 1],
                255 => vec![1, gsdf.luminance(range.jhi + 1) - targets[255] - 1],
                _ => vec![1, most, most + 1],
            };
            for units in units {
                let (readings, worst) = off_at(&targets, p, brighter, units);
                let facts = if most < units { vec![Number(11)] } else { vec![WorstStep(worst), Times(1)] };
                let record = display(8, 0, &[], 2, readings);
                examples.push((format!("{units} at {p}"), record.bytes(), LEAST, facts));
            }
        }
    }
    examples
}

/// What products of floating-point numbers make of an allowed error, as a programmer may write them.
fn inexact(tolerance: u64, target: u64) -> [u64; 2] {
    let (parts, luminance) = (tolerance as f64, target as f64);
    [parts / 1_000.0 * luminance, luminance * (parts * 0.001)].map(|product| product as u64)
}

/// Errors that are a whole number of units at a target where such a product falls short of it: one level as far off as that, and one more. No other level is allowed there.
fn whole_errors(gsdf: &Gsdf) -> Vec<Example> {
    let mut examples = vec![];
    let ranges = [10_010, 30_000, 60_000, 100_000].into_iter().flat_map(|n| (200..2_200).step_by(40).map(move |k| [k, k + n]));
    let targets: Vec<Vec<u64>> =
        ranges.map(|ends| ends.map(|k| gsdf.index(gsdf.luminance(k)))).map(|[jlo, jhi]| Range { jlo, jhi }.targets(gsdf, 255)).collect();
    for tolerance in 1..=300 {
        let fits = |targets: &[u64], p: usize| {
            let most = tolerance * targets[p] / 1_000;
            let whole = tolerance * targets[p] % 1_000 == 0;
            whole
                && inexact(tolerance, targets[p]).iter().any(|&short| short < most)
                && (p - 1..=p).all(|step| most + 1 < targets[step + 1] - targets[step])
        };
        let Some((targets, p)) = targets.iter().find_map(|targets| (1..255).find(|&p| fits(targets, p)).map(|p| (targets, p))) else {
            continue;
        };
        let most = tolerance * targets[p] / 1_000;
        for (units, number) in [(most, 0), (most + 1, 11)] {
            for brighter in [false, true] {
                let (readings, _) = off_at(targets, p, brighter, units);
                let record = display(8, 1, &[], tolerance, readings);
                examples.push((
                    format!("{units} of {} with an error of {tolerance}", targets[p]),
                    record.bytes(),
                    LEAST,
                    vec![Number(number)],
                ));
            }
        }
    }
    examples
}

/// With an error of 0, single levels off by a unit: no table because of the first P-value, of the last, of all or of any; but with an error of 1 there is one.
fn no_level(gsdf: &Gsdf) -> Vec<Example> {
    let mut examples = vec![];
    let targets = Range { jlo: 50_000, jhi: 101_000 }.targets(gsdf, 255);
    let all: Vec<usize> = (0..ENTRIES).collect();
    for off in [&all[..1], &all[1..2], &all[100..101], &all[254..255], &all[255..], &all[..128], &all[128..], &all[1..255], &all[..]] {
        let mut readings = targets.clone();
        off.iter().for_each(|&p| readings[p] += 1);
        for (tolerance, facts) in [(0, vec![Number(11)]), (1, vec![Number(0), Times(1)])] {
            examples.push((format!("off at {off:?}"), display(8, 1, &[], tolerance, readings.clone()).bytes(), LEAST, facts));
        }
    }
    examples
}

/// Two luminances, at so many levels each. Where the dark one is always allowed, the lowest table has no step. Where it is allowed up to 2.5 times itself, and the bright one from 0.625 of itself on, the table has one step, from the one to the other.
fn two_luminances() -> Vec<Example> {
    let mut examples = vec![];
    for dark in [1, 2, 128, 254, 255] {
        let job = |tolerance, first| {
            let readings = (0..256).map(|d| if d < dark { first } else { 39_934_040 }).collect();
            display(8, 0, &[], tolerance, readings).bytes()
        };
        examples.push(("no step".to_string(), job(1_000, 500), LEAST, vec![WorstStep(1_000), Times(0)]));
        examples.push(("no level between".to_string(), job(999, 500), LEAST, vec![Number(11)]));
        examples.push(("one step".to_string(), job(600, 10_000_000), LEAST, vec![Number(0), Entry(0, 0), Entry(255, dark as u16)]));
        examples.push(("no level between".to_string(), job(590, 10_000_000), LEAST, vec![Number(11)]));
    }
    examples
}

/// Each fact of engine and reference, and the engine's whole answer against the reference's.
fn compare(reference: &Engine, name: &'static str, examples: Vec<Example>, expected: u64) -> bool {
    let mut random = Random::new(21);
    let mut all = Comparison::new(name);
    for (name, bytes, [entries, words], facts) in examples {
        let lent = Lent::new(&mut random, &bytes, entries, words);
        let mut answers = [Answer::of_engine(&lent), Answer::of_reference(reference, &lent)];
        all.facts(&name, &mut answers, &facts, Fact::holds);
        let [mut engine, expected] = answers;
        all.count(engine.wrong(reference, &expected).map(|difference| format!("{name}, {difference}")));
    }
    all.ended(expected)
}

/// The examples of the nearest table, and its job with every reflectance: with an error of 0, and with one that leaves a table.
fn nearest_examples(reference: &Engine) -> bool {
    let mut random = Random::new(22);
    let mut all = Answers::new("even: examples of the nearest table");
    let reflectances = (0..=1_000).flat_map(|reflectance| {
        let mut job = nearest_tests::every::job(reflectance);
        let exact = job.bytes();
        job.settings[4] = 100;
        [exact, job.bytes()]
    });
    for bytes in nearest_tests::stated::records().into_iter().chain(reflectances) {
        let lent = Lent::new(&mut random, &bytes, ENTRIES, WORDS);
        all.count(&lent.table, wrong(reference, &lent, &Answer::of_reference(reference, &lent)));
    }
    all.ended(14 + 11 + 35 + 5 + 3 + 13 + 20 + 8 + 2 * 1_001)
}

pub fn results(reference: &Engine) -> Vec<bool> {
    let gsdf = &reference.gsdf;
    vec![
        marked_examples(),
        compare(reference, "even: refusal table", refusal_table(), 26 * 5 * 3),
        compare(reference, "even: exact displays", exact(gsdf), (3 * 4 * 3 * 4 + 4) * 7),
        compare(reference, "even: one level off", off_by_units(gsdf), 4 * 5 + 254 * 2 * (5 + 5 + 3)),
        compare(reference, "even: whole errors", whole_errors(gsdf), 11 * 4 * 3),
        compare(reference, "even: no allowed level", no_level(gsdf), 9 * (3 + 5)),
        compare(reference, "even: two luminances", two_luminances(), 5 * (5 + 3 + 7 + 3)),
        nearest_examples(reference),
    ]
}
