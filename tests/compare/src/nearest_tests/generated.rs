//! Jobs drawn from a seed, and what there was among them.
use std::collections::HashSet;

use reference::curve;
use reference::engine::{Engine, Sound};
use reference::gsdf::Gsdf;
use reference::nearest::Table;
use reference::record;
use reference::target::Range;

use super::{Answer, Lent};
use crate::jobs::{self, SHAPES};
use crate::lent::Answers;
use crate::random::Random;
use crate::tally::Tally;

/// How often each thing has to be seen at least, where there are as many jobs as the gate's or more.
const LEAST: u64 = 50;
const LENGTHS: [usize; 6] = [0, 255, 256, 257, 1_000, 65_536];

type Property = fn(&Sound, &Table) -> bool;

/// What a sound job can have.
const PROPERTIES: [(&str, Property); 25] = [
    ("a tie", |_, table| 0 < table.ties),
    ("a plateau", |_, table| 0 < table.plateaus),
    ("a tie and a plateau", |_, table| 0 < table.ties && 0 < table.plateaus),
    ("all exact", |_, table| table.largest_error == 0),
    ("largest error at the first entry only", |_, table| error_alone_at(table, 0..1)),
    ("in the middle only", |_, table| error_alone_at(table, 1..255)),
    ("at the last only", |_, table| error_alone_at(table, 255..256)),
    ("depth 8", |job, _| job.record.depth() == 8),
    ("depth 9", |job, _| job.record.depth() == 9),
    ("depth 10", |job, _| job.record.depth() == 10),
    ("2 readings", |job, _| job.record.ddls.len() == 2),
    ("3 to 17 readings", |job, _| (3..18).contains(&job.record.ddls.len())),
    ("all levels", |job, _| job.record.ddls.len() == job.curve.len()),
    ("1,024 readings", |job, _| job.record.ddls.len() == 1_024),
    ("no lamps", |job, _| job.record.lamps.is_empty()),
    ("8 lamps", |job, _| job.record.lamps.len() == 8),
    ("no check", |job, _| job.record.check.is_empty()),
    ("check", |job, _| job.record.check.len() == 18),
    ("room light added", |job, _| job.added != 0),
    ("room light in the readings", |job, _| job.added == 0 && curve::room_luminance(&job.record) != 0),
    ("4 × A0 the first reading", |job, _| mark_is_off_by(job, 0)),
    ("one more than it", |job, _| mark_is_off_by(job, 1)),
    ("N = 10,000", |job, _| job.range.width() == 10_000),
    ("F(0) = 500", |job, _| job.curve[0] == 500),
    ("F(M) = 39,934,040", |job, _| job.curve[job.curve.len() - 1] == 39_934_040),
];

/// Whether only entries at these places have the largest error.
fn error_alone_at(table: &Table, places: std::ops::Range<usize>) -> bool {
    (0..256).all(|p| places.contains(&p) || table.errors[p] < table.largest_error)
}

fn mark_is_off_by(job: &Sound, units: u64) -> bool {
    let room = 4 * curve::room_luminance(&job.record);
    room != 0 && room == job.record.luminances[0] + units
}

/// What a refused job can have.
const NEAR_MISSES: [&str; 3] = ["F(0) = 499", "F(M) = 39,934,041", "N = 9,999"];

fn near_miss(gsdf: &Gsdf, bytes: &[u8], number: u32) -> Option<usize> {
    if number < 8 {
        return None;
    }
    let curve = curve::curve(&record::read(bytes).ok()?);
    let (darkest, brightest) = (curve[0], curve[curve.len() - 1]);
    match number {
        8 => (darkest == 499).then_some(0),
        9 => (brightest == 39_934_041).then_some(1),
        _ => (Range::between(gsdf, darkest, brightest).width() == 9_999).then_some(2),
    }
}

/// What was seen in a run.
struct Seen {
    answers: Tally,
    marks: Tally,
    lengths: Tally,
    addresses: Tally,
    shapes: Tally,
    properties: Tally,
    near_misses: Tally,
    sound: u64,
    tables: HashSet<Vec<u64>>,
}

impl Seen {
    fn new() -> Seen {
        Seen {
            answers: Tally::new("nearest: answers", 0..=10),
            marks: Tally::new("nearest: room marks", ["low", "high"]),
            lengths: Tally::new("nearest: entries lent", LENGTHS),
            addresses: Tally::new("nearest: address of the first entry, modulo 4", [0, 2]),
            shapes: Tally::new("nearest: shapes of sound jobs", SHAPES.map(|shape| format!("{shape:?}"))),
            properties: Tally::new("nearest: among sound jobs", PROPERTIES.map(|(name, _)| name)),
            near_misses: Tally::new("nearest: among refused jobs", NEAR_MISSES),
            sound: 0,
            tables: HashSet::new(),
        }
    }

    fn sound(&mut self, job: &Sound, table: &Table) {
        self.sound += 1;
        self.marks.add(usize::from(job.room_high));
        self.properties.add_each(&PROPERTIES, |holds| holds(job, table));
        self.tables.insert(table.entries.clone());
    }

    /// Whether most sound jobs have a table of their own.
    fn tables_ended(tables: usize, sound: u64) -> bool {
        println!("nearest: {sound} sound jobs, {tables} different tables");
        sound <= 2 * tables as u64
    }

    fn ended(self, least: u64) -> Vec<bool> {
        let tables = Seen::tables_ended(self.tables.len(), self.sound);
        let tallies = [self.answers, self.marks, self.lengths, self.addresses, self.shapes, self.properties, self.near_misses];
        let mut results: Vec<bool> = tallies.into_iter().map(|tally| tally.ended(least)).collect();
        results.push(tables);
        results
    }
}

/// Entries lent, short ones now and then, and seldom a great many.
fn length(random: &mut Random) -> usize {
    match random.below(100) {
        0..=4 => 0,
        5..=9 => 1,
        10 => 5,
        n => 2 + n as usize % 3,
    }
}

pub fn results(reference: &Engine, count: u64, seed: u64) -> Vec<bool> {
    let [mut drawn, mut random] = jobs::generators(seed);
    let mut all = Answers::new("nearest: generated jobs");
    let mut seen = Seen::new();
    for _ in 0..count {
        let job = jobs::draw(&mut drawn, &reference.gsdf);
        let length = length(&mut random);
        let lent = Lent::new(&mut random, &job.bytes, LENGTHS[length]);
        seen.lengths.add(length);
        seen.addresses.add(lent.memory.first % 2);
        let expected = match reference.nearest(&job.bytes, lent.entries()) {
            Err(number) => {
                if let Some(place) = near_miss(&reference.gsdf, &job.bytes, number) {
                    seen.near_misses.add(place);
                }
                Answer::refused(number, &lent)
            }
            Ok((sound, table)) => {
                seen.sound(&sound, &table);
                if let Some(place) = SHAPES.iter().position(|&shape| Some(shape) == job.shape) {
                    seen.shapes.add(place);
                }
                Answer::made(&sound, &table, &lent)
            }
        };
        seen.answers.add(expected.result.refusal as usize);
        all.count(&lent, Answer::of_engine(&lent).difference(&expected));
    }
    let mut results = vec![all.ended(count)];
    results.extend(seen.ended(if jobs::COUNT <= count { LEAST } else { 0 }));
    results
}
