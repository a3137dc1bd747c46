//! Jobs drawn from a seed, and what there was among them.
use reference::contrast::{Contrast, Pair, PAIRS};
use reference::curve;
use reference::engine::{Engine, Sound};
use reference::gsdf::Gsdf;
use reference::record;

use super::{Answer, Lent};
use crate::jobs::{self, SHAPES};
use crate::lent::Answers;
use crate::random::Random;
use crate::tally::Tally;

/// How often each thing has to be seen at least, where there are as many jobs as the gate's or more; each pair far off alone; and each answer that is the check's own.
const LEAST: u64 = 50;
const LEAST_ALONE: u64 = 100;
const LEAST_OWN: u64 = 200;
const LENGTHS: [usize; 6] = [0, 16, 17, 18, 40, 65_536];

type Property = fn(&Sound, &Contrast) -> bool;

/// What a check that was made can have.
const PROPERTIES: [(&str, Property); 27] = [
    ("primary, pass", |job, check| job.record.class() == 1 && check.passes),
    ("primary, fail", |job, check| job.record.class() == 1 && !check.passes),
    ("secondary, pass", |job, check| job.record.class() == 2 && check.passes),
    ("secondary, fail", |job, check| job.record.class() == 2 && !check.passes),
    ("primary, fail and a secondary would pass", |_, check| !check.passes && check.pairs.iter().all(|pair| pair.passes(2))),
    ("fail by the first pair alone", |job, check| fails_alone(job, check, 0)),
    ("by one between", |job, check| (1..PAIRS - 1).any(|pair| fails_alone(job, check, pair))),
    ("by the last alone", |job, check| fails_alone(job, check, PAIRS - 1)),
    ("primary, fail by 100", |job, check| fails_by(job, check, 1, 100)),
    ("by −101", |job, check| fails_by(job, check, 1, -101)),
    ("secondary, fail by 200", |job, check| fails_by(job, check, 2, 200)),
    ("by −201", |job, check| fails_by(job, check, 2, -201)),
    ("falling patches", |_, check| check.measured.windows(2).any(|pair| pair[1] < pair[0])),
    ("equal patches", |_, check| check.measured.windows(2).any(|pair| pair[1] == pair[0])),
    ("as expected", |_, check| check.measured == check.expected),
    ("deviation −1", |_, check| check.deviations.contains(&-1)),
    ("above 10,000", |_, check| check.deviations.iter().any(|&deviation| 10_000 < deviation)),
    ("below −10,000", |_, check| check.deviations.iter().any(|&deviation| deviation < -10_000)),
    ("room light added", |job, _| job.added != 0),
    ("room light in the readings", |job, _| job.added == 0 && curve::room_luminance(&job.record) != 0),
    ("no room light", |job, _| curve::room_luminance(&job.record) == 0),
    ("Nc = 10,000", |_, check| check.range == 10_000),
    ("Nc = 10,001", |_, check| check.range == 10_001),
    ("a patch of 500", |_, check| check.measured.contains(&500)),
    ("of 39,934,040", |_, check| check.measured.contains(&39_934_040)),
    ("2 readings", |job, _| job.record.ddls.len() == 2),
    ("1,024 readings", |job, _| job.record.ddls.len() == 1_024),
];

fn fails_alone(job: &Sound, check: &Contrast, pair: usize) -> bool {
    (0..PAIRS).all(|i| check.pairs[i].passes(job.record.class()) == (i != pair))
}

type FarOff = fn(&Pair) -> bool;

/// What the only pair that fails can have.
const ALONE: [(&str, FarOff); 5] = [
    ("fails alone by an equal pair", |pair| pair.x == 0),
    ("by a fall", |pair| pair.x < 0),
    ("by over 300", |pair| 300 < pair.deviation()),
    ("by over 500", |pair| 500 < pair.deviation()),
    ("by over 1,000", |pair| 1_000 < pair.deviation()),
];

/// Whether a pair of this class fails by a deviation that is the limit when it is rounded toward zero.
fn fails_by(job: &Sound, check: &Contrast, class: u64, deviation: i128) -> bool {
    let fails = |pair: &Pair| pair.deviation() == deviation && !pair.passes(class);
    job.record.class() == class && check.pairs.iter().any(fails)
}

type NearMiss = fn(&Gsdf, u32, &[u64]) -> bool;

/// What the patches of a job can have that is refused under 12 or 13.
const NEAR_MISSES: [(&str, NearMiss); 9] = [
    ("first patch outside", |gsdf, _, patches| outside(gsdf, patches[0])),
    ("only one between", |gsdf, _, patches| patches.iter().filter(|&&v| outside(gsdf, v)).count() == 1 && !ends_outside(gsdf, patches)),
    ("last patch outside", |gsdf, _, patches| outside(gsdf, patches[PAIRS])),
    ("a patch of 499", |_, _, patches| patches.contains(&499)),
    ("of 39,934,041", |_, _, patches| patches.contains(&39_934_041)),
    ("beyond 32 bits", |_, _, patches| patches.iter().any(|&v| 1 << 32 <= v)),
    ("12 and Nc below 10,000", |gsdf, number, patches| number == 12 && !ends_outside(gsdf, patches) && range(gsdf, patches) < 10_000),
    ("Nc = 9,999", |gsdf, number, patches| number == 13 && range(gsdf, patches) == 9_999),
    ("Nc at most −9,999", |gsdf, number, patches| number == 13 && range(gsdf, patches) <= -9_999),
];

fn outside(gsdf: &Gsdf, luminance: u64) -> bool {
    luminance < gsdf.darkest() || gsdf.brightest() < luminance
}

fn ends_outside(gsdf: &Gsdf, patches: &[u64]) -> bool {
    outside(gsdf, patches[0]) || outside(gsdf, patches[PAIRS])
}

/// Nc of ends in the table.
fn range(gsdf: &Gsdf, patches: &[u64]) -> i64 {
    gsdf.index(patches[PAIRS]) as i64 - gsdf.index(patches[0]) as i64
}

/// v(0) to v(17) of a sound record.
fn patches(bytes: &[u8]) -> Vec<u64> {
    let record = record::read(bytes).expect("a sound record can be read");
    let added = curve::added_luminance(&record);
    record.check.iter().map(|reading| reading + added).collect()
}

/// What was seen in a run.
struct Seen {
    answers: Tally,
    refusals: Tally,
    lengths: Tally,
    addresses: Tally,
    shapes: Tally,
    properties: Tally,
    alone: Tally,
    near_misses: Tally,
}

impl Seen {
    fn new() -> Seen {
        Seen {
            answers: Tally::new("check: answers", ["not measured", "pass", "fail", "12", "13"]),
            refusals: Tally::new("check: refusals", 1..=10),
            lengths: Tally::new("check: places lent", LENGTHS),
            addresses: Tally::new("check: address of the first place, modulo 8", [0, 4]),
            shapes: Tally::new("check: shapes of panels with a check", SHAPES.map(|shape| format!("{shape:?}"))),
            properties: Tally::new("check: among checks that were made", PROPERTIES.map(|(name, _)| name)),
            alone: Tally::new("check: among checks that fail by one pair", ALONE.map(|(name, _)| name)),
            near_misses: Tally::new("check: among checks that were refused", NEAR_MISSES.map(|(name, _)| name)),
        }
    }

    fn answer(&mut self, answer: &Answer) {
        match answer.result.refusal {
            0 => self.answers.add(answer.result.verdict as usize),
            12 => self.answers.add(3),
            13 => self.answers.add(4),
            number => self.refusals.add(number as usize - 1),
        }
    }

    fn made(&mut self, job: &Sound, check: &Contrast) {
        self.properties.add_each(&PROPERTIES, |holds| holds(job, check));
        for pair in (0..PAIRS).filter(|&pair| fails_alone(job, check, pair)) {
            self.alone.add_each(&ALONE, |holds| holds(&check.pairs[pair]));
        }
    }

    fn refused(&mut self, gsdf: &Gsdf, number: u32, patches: &[u64]) {
        self.near_misses.add_each(&NEAR_MISSES, |holds| holds(gsdf, number, patches));
    }

    fn ended(self, all: bool) -> Vec<bool> {
        let least = |least| if all { least } else { 0 };
        let mut results = vec![self.answers.ended(least(LEAST_OWN)), self.alone.ended(least(LEAST_ALONE))];
        let tallies = [self.refusals, self.lengths, self.addresses, self.shapes, self.properties, self.near_misses];
        results.extend(tallies.into_iter().map(|tally| tally.ended(least(LEAST))));
        results
    }
}

/// Places lent, short ones now and then, and seldom a great many.
fn length(random: &mut Random) -> usize {
    match random.below(100) {
        0..=2 => 0,
        3..=5 => 1,
        6 => 5,
        n => 2 + n as usize % 3,
    }
}

pub fn results(reference: &Engine, count: u64, seed: u64) -> Vec<bool> {
    let [mut drawn, mut random] = jobs::generators(seed);
    let mut all = Answers::new("check: generated jobs");
    let mut seen = Seen::new();
    for _ in 0..count {
        let job = jobs::draw(&mut drawn, &reference.gsdf);
        let length = length(&mut random);
        let lent = Lent::new(&mut random, &job.bytes, LENGTHS[length]);
        seen.lengths.add(length);
        seen.addresses.add(lent.memory.first % 2);
        let expected = match reference.check(&job.bytes, lent.entries()) {
            Err(number) => {
                if 11 < number {
                    seen.refused(&reference.gsdf, number, &patches(&job.bytes));
                }
                Answer::refused(number, &lent)
            }
            Ok((sound, check)) => {
                if let Some(check) = &check {
                    seen.made(&sound, check);
                    SHAPES.iter().position(|&shape| Some(shape) == job.shape).into_iter().for_each(|place| seen.shapes.add(place));
                }
                Answer::made(check.as_ref(), &lent)
            }
        };
        seen.answer(&expected);
        all.count(&lent, Answer::of_engine(&lent).difference(&expected));
    }
    let mut results = vec![all.ended(count)];
    results.extend(seen.ended(jobs::COUNT <= count));
    results
}
