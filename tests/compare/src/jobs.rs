//! Job records of every kind, drawn from a seeded generator.
mod checks;
pub mod damage;
mod ends;
pub mod factors;
pub mod limits;
mod panels;

use reference::gsdf::Gsdf;
use reference::record::Record;

use crate::random::Random;
pub use panels::{Shape, SHAPES};

/// How many jobs the gate runs, and from which seed.
pub const COUNT: u64 = 20_000;
pub const SEED: u64 = 14;

/// For the jobs, and for what is lent with them: operations that draw the same kind get the same jobs.
pub fn generators(seed: u64) -> [Random; 2] {
    [seed, !seed].map(Random::new)
}

/// What is drawn in another way for each operation.
#[derive(Clone, Copy)]
struct Kind {
    tolerance: fn(&mut Random) -> u64,
    shape: fn(&mut Random) -> Shape,
}

const ANY: Kind = Kind {
    tolerance: |random| {
        let any = random.below(1_001);
        random.one_of(&[0, 50, 1_000, any])
    },
    shape: |random| random.one_of(&SHAPES),
};

/// An allowed error at its ends, usual, any, or one of which many targets have a whole share; gaps and exact panels more often.
const EVEN: Kind = Kind {
    tolerance: |random| match random.below(20) {
        0..=3 => 0,
        4 | 5 => 1,
        6..=8 => random.between(2, 20),
        9..=12 => random.between(20, 200),
        13 | 14 => random.below(1_001),
        15 | 16 => random.one_of(&[10, 50, 100, 200, 250, 500]),
        17 => 999,
        _ => 1_000,
    },
    shape: |random| {
        let any = random.one_of(&SHAPES);
        random.one_of(&[any, any, any, Shape::Exact, Shape::Gap, Shape::Gap])
    },
};

/// A job record, with the shape of its sweep where it was made from one and not damaged.
pub struct Job {
    pub bytes: Vec<u8>,
    pub shape: Option<Shape>,
}

/// No lamp to eight, dim or bright, in a room with little reflection or any.
fn room(random: &mut Random, record: &mut Record) {
    let brightest = random.one_of(&[0, 20, 100, 2_000]);
    record.lamps = (0..random.below(9)).map(|_| random.below(brightest + 1)).collect();
    record.settings[3] = match random.below(4) {
        0 => random.one_of(&[0, 1, 60, 1_000]),
        1 => random.below(1_001),
        _ => random.below(101),
    };
}

/// A record without damage: sound, or refused for what it holds under 8, 9 or 10; its check under 12 or 13.
fn undamaged(random: &mut Random, gsdf: &Gsdf, kind: Kind) -> (Record, Shape) {
    let depth = random.between(8, 10);
    let tolerance = (kind.tolerance)(random);
    let mut record = Record { settings: vec![depth, random.below(2), random.between(1, 2), 0, tolerance], ..Record::default() };
    room(random, &mut record);
    let ends = ends::draw(random, gsdf, &mut record);
    let shape = (kind.shape)(random);
    let (ddls, luminances) = panels::sweep(random, gsdf, shape, &ends, &record);
    let check = checks::draw(random, gsdf, &record, &ends);
    (Record { ddls, luminances, check, ..record }, shape)
}

/// Nothing, any bytes, or any after the first count.
fn no_record(random: &mut Random) -> Vec<u8> {
    match random.below(4) {
        0 => vec![],
        1 => random.bytes(100),
        2 => random.bytes(7_000),
        _ => [vec![5, 0], random.bytes(100)].concat(),
    }
}

pub fn draw(random: &mut Random, gsdf: &Gsdf) -> Job {
    draw_kind(random, gsdf, ANY)
}

pub fn draw_even(random: &mut Random, gsdf: &Gsdf) -> Job {
    draw_kind(random, gsdf, EVEN)
}

fn draw_kind(random: &mut Random, gsdf: &Gsdf, kind: Kind) -> Job {
    let share = random.below(100);
    if share < 2 {
        return Job { bytes: no_record(random), shape: None };
    }
    let (record, shape) = undamaged(random, gsdf, kind);
    if share < 30 {
        return Job { bytes: damage::damaged(random, record), shape: None };
    }
    Job { bytes: record.bytes(), shape: Some(shape) }
}
