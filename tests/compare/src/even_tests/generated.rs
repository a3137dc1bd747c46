//! Jobs drawn from a seed, and what there was among them.
use std::ops::Range;

use reference::curve;
use reference::engine::{Engine, Sound};
use reference::even::{is_allowed, step_deviation, Table};
use reference::nearest;

use super::{wrong, Answer, Lent, FILLINGS};
use crate::jobs::{self, Shape, SHAPES};
use crate::lent::Answers;
use crate::random::Random;
use crate::tally::Tally;

/// The reference takes long, so there is one job for so many of the other operations.
const FEWER: u64 = 4;
/// How often each thing has to be seen at least, where there are as many jobs as the gate's or more, and each answer that is the even table's own.
const LEAST: u64 = 5;
const LEAST_OWN: u64 = 300;
const ENTRIES: [usize; 5] = [0, 255, 256, 257, 300];
const WORDS: [usize; 5] = [0, 8_191, 8_192, 8_193, 9_000];

/// The levels allowed at each P-value.
fn allowed(job: &Sound) -> Vec<usize> {
    let is_allowed = |luminance: u64, target: u64| is_allowed(luminance, target, job.record.tolerance());
    job.targets.iter().map(|&target| job.curve.iter().filter(|&&luminance| is_allowed(luminance, target)).count()).collect()
}

fn luminance(job: &Sound, table: &Table, p: usize) -> u64 {
    job.curve[table.entries[p] as usize]
}

/// Whether only steps at these places have the worst deviation.
fn worst_alone_at(job: &Sound, table: &Table, places: Range<usize>) -> bool {
    let f = |p: usize| (luminance(job, table, p + 1) - luminance(job, table, p)) as i64;
    let g = |p: usize| (job.targets[p + 1] - job.targets[p]) as i64;
    (0..255).all(|p| places.contains(&p) || step_deviation(f(p), g(p)) < table.worst_step)
}

/// Whether an entry has an error of as much as is allowed, to the unit.
fn at_limit(job: &Sound, table: &Table, brighter: bool) -> bool {
    let error = |p: usize| job.record.tolerance() * job.targets[p];
    let is_at_limit = |p: usize| {
        let (luminance, target) = (luminance(job, table, p), job.targets[p]);
        luminance != target && (target < luminance) == brighter && luminance.abs_diff(target) * 1_000 == error(p)
    };
    (0..256).any(is_at_limit)
}

type Property = fn(&Sound, &Table) -> bool;

/// What a job with a table can have.
const PROPERTIES: [(&str, Property); 34] = [
    ("worst step 0", |_, table| table.worst_step == 0),
    ("1 to 999", |_, table| (1..1_000).contains(&table.worst_step)),
    ("1,000", |_, table| table.worst_step == 1_000),
    ("over 1,000", |_, table| 1_000 < table.worst_step),
    ("over 10,000", |_, table| 10_000 < table.worst_step),
    ("worst at the first step only", |job, table| worst_alone_at(job, table, 0..1)),
    ("between only", |job, table| worst_alone_at(job, table, 1..254)),
    ("at the last only", |job, table| worst_alone_at(job, table, 254..255)),
    ("a tie", |_, table| table.tie),
    ("no tie", |_, table| !table.tie),
    ("a tie, worst step 0", |_, table| table.tie && table.worst_step == 0),
    ("one level allowed at some P-value", |job, _| allowed(job).contains(&1)),
    ("at every P-value", |job, _| allowed(job).iter().all(|&levels| levels == 1)),
    ("an entry at the limit, darker", |job, table| at_limit(job, table, false)),
    ("brighter", |job, table| at_limit(job, table, true)),
    ("another table than the nearest", |job, table| nearest::table(&job.curve, &job.targets).entries != table.entries),
    ("the nearest", |job, table| nearest::table(&job.curve, &job.targets).entries == table.entries),
    ("equal neighbours", |_, table| table.entries.windows(2).any(|pair| pair[0] == pair[1])),
    ("no equal neighbours", |_, table| table.entries.windows(2).all(|pair| pair[0] < pair[1])),
    ("error 0", |job, _| job.record.tolerance() == 0),
    ("error 1", |job, _| job.record.tolerance() == 1),
    ("error 2 to 998", |job, _| (2..999).contains(&job.record.tolerance())),
    ("error 999", |job, _| job.record.tolerance() == 999),
    ("error 1,000", |job, _| job.record.tolerance() == 1_000),
    ("depth 8", |job, _| job.record.depth() == 8),
    ("depth 9", |job, _| job.record.depth() == 9),
    ("depth 10", |job, _| job.record.depth() == 10),
    ("2 readings", |job, _| job.record.ddls.len() == 2),
    ("3 to 17 readings", |job, _| (3..18).contains(&job.record.ddls.len())),
    ("1,024 readings", |job, _| job.record.ddls.len() == 1_024),
    ("check", |job, _| job.record.check.len() == 18),
    ("room light added", |job, _| job.added != 0),
    ("room light in the readings", |job, _| job.added == 0 && curve::room_luminance(&job.record) != 0),
    ("no room light", |job, _| curve::room_luminance(&job.record) == 0),
];

/// Whether the P-values without an allowed level are all at these places.
fn missing_at(job: &Sound, places: Range<usize>) -> bool {
    allowed(job).iter().enumerate().all(|(p, &levels)| levels != 0 || places.contains(&p))
}

/// Whether the only P-value without an allowed level has a level that is one unit beyond its error.
fn missing_by_a_unit(job: &Sound) -> bool {
    let missing: Vec<usize> = (0..256).zip(allowed(job)).filter(|&(_, levels)| levels == 0).map(|(p, _)| p).collect();
    let is_near = |p: usize| {
        let most = job.record.tolerance() * job.targets[p] / 1_000;
        job.curve.iter().any(|luminance| luminance.abs_diff(job.targets[p]) == most + 1)
    };
    missing.len() == 1 && is_near(missing[0])
}

type NoTable = fn(&Sound) -> bool;

/// What a job without a table can have.
const NO_TABLES: [(&str, NoTable); 11] = [
    ("no level at the first P-value only", |job| missing_at(job, 0..1)),
    ("at the last only", |job| missing_at(job, 255..256)),
    ("at one of the first eight only", |job| missing_at(job, 0..8)),
    ("between only", |job| missing_at(job, 8..248)),
    ("at one of the last eight only", |job| missing_at(job, 248..256)),
    ("at 200 P-values or more", |job| 200 <= allowed(job).iter().filter(|&&levels| levels == 0).count()),
    ("by a unit at one P-value", missing_by_a_unit),
    ("error 0", |job| job.record.tolerance() == 0),
    ("error 1", |job| job.record.tolerance() == 1),
    ("error over 100", |job| 100 < job.record.tolerance()),
    ("1,024 readings", |job| job.record.ddls.len() == 1_024),
];

/// What was seen in a run.
struct Seen {
    answers: Tally,
    refusals: Tally,
    entries: Tally,
    words: Tally,
    fillings: Tally,
    addresses: Tally,
    shapes: Tally,
    properties: Tally,
    no_tables: Tally,
}

fn shapes() -> impl Iterator<Item = Shape> {
    SHAPES.into_iter().chain([Shape::Gap])
}

impl Seen {
    fn new() -> Seen {
        Seen {
            answers: Tally::new("even: answers", ["made", "no table"]),
            refusals: Tally::new("even: refusals", 1..=10),
            entries: Tally::new("even: entries lent", ENTRIES),
            words: Tally::new("even: words lent", WORDS),
            fillings: Tally::new("even: what the words of jobs with a table held", FILLINGS),
            addresses: Tally::new(
                "even: address of the first entry, modulo 4, and of the first word, modulo 8",
                ["0, 0", "2, 0", "0, 4", "2, 4"],
            ),
            shapes: Tally::new("even: shapes of displays with a table", shapes().map(|shape| format!("{shape:?}"))),
            properties: Tally::new("even: among jobs with a table", PROPERTIES.map(|(name, _)| name)),
            no_tables: Tally::new("even: among jobs without", NO_TABLES.map(|(name, _)| name)),
        }
    }

    fn ended(self, all: bool) -> Vec<bool> {
        let least = |least| if all { least } else { 0 };
        let mut results = vec![self.answers.ended(least(LEAST_OWN))];
        let tallies =
            [self.refusals, self.entries, self.words, self.fillings, self.addresses, self.shapes, self.properties, self.no_tables];
        results.extend(tallies.into_iter().map(|tally| tally.ended(least(LEAST))));
        results
    }
}

/// A length that is too short now and then.
fn length(random: &mut Random) -> usize {
    match random.below(50) {
        0 => 0,
        1 => 1,
        n => 2 + n as usize % 3,
    }
}

/// As many jobs as there are for so many of the other operations.
pub fn results(reference: &Engine, count: u64, seed: u64) -> Vec<bool> {
    let [mut drawn, mut random] = jobs::generators(seed);
    let mut all = Answers::new("even: generated jobs");
    let mut seen = Seen::new();
    for _ in 0..count / FEWER {
        let job = jobs::draw_even(&mut drawn, &reference.gsdf);
        let [entries, words] = [length(&mut random), length(&mut random)];
        let lent = Lent::new(&mut random, &job.bytes, ENTRIES[entries], WORDS[words]);
        seen.entries.add(entries);
        seen.words.add(words);
        seen.addresses.add(lent.table.memory.first % 2 + 2 * (lent.work.first % 2));
        let expected = match reference.even(&job.bytes, ENTRIES[entries], WORDS[words]) {
            Err(11) => {
                seen.answers.add(1);
                let sound = reference.sound(&job.bytes).expect("11 comes after 10");
                seen.no_tables.add_each(&NO_TABLES, |holds| holds(&sound));
                Answer::refused(11, &lent)
            }
            Err(number) => {
                seen.refusals.add(number as usize - 1);
                Answer::refused(number, &lent)
            }
            Ok((sound, table)) => {
                seen.answers.add(0);
                seen.fillings.add(lent.filling);
                shapes().position(|shape| Some(shape) == job.shape).into_iter().for_each(|place| seen.shapes.add(place));
                seen.properties.add_each(&PROPERTIES, |holds| holds(&sound, &table));
                Answer::made(&table, &lent)
            }
        };
        all.count(&lent.table, wrong(reference, &lent, &expected));
    }
    let mut results = vec![all.ended(count / FEWER)];
    results.extend(seen.ended(jobs::COUNT <= count));
    results
}
