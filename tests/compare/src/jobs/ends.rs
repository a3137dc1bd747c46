//! The first and the last luminance of a sweep: in the table, at its limits and beyond.
use reference::curve::{added_luminance, room_luminance};
use reference::gsdf::{Gsdf, FIRST_INDEX, LAST_INDEX};
use reference::record::Record;
use reference::target::Range;

use crate::random::Random;

pub const LEAST_RANGE: u64 = 10_000;
pub const LARGEST_READING: u64 = u32::MAX as u64;

/// The first and the last reading as recorded, and A.
pub struct Ends {
    pub first: u64,
    pub last: u64,
    pub added: u64,
}

impl Ends {
    /// Readings for a curve between these luminances, as far as A allows.
    fn of_curve(record: &Record, darkest: u64, brightest: u64) -> Ends {
        let added = added_luminance(record);
        let first = darkest.saturating_sub(added);
        Ends { first, last: brightest.saturating_sub(added).max(first), added }
    }

    pub fn in_table(&self, gsdf: &Gsdf) -> bool {
        gsdf.darkest() <= self.first + self.added && self.last + self.added <= gsdf.brightest()
    }

    pub fn range(&self, gsdf: &Gsdf) -> Range {
        Range::between(gsdf, self.first + self.added, self.last + self.added)
    }
}

/// The luminance of an index, or one up to that of the next.
fn luminance_at(random: &mut Random, gsdf: &Gsdf, k: u64) -> u64 {
    let here = gsdf.luminance(k);
    let next = gsdf.luminance(LAST_INDEX.min(k + 1));
    let between = random.between(here, next);
    random.one_of(&[here, between])
}

/// F(0) for a sound job, if the room is not too bright for one; the darkest that the room allows, near it or anywhere above.
pub fn darkest(random: &mut Random, gsdf: &Gsdf, record: &Record) -> u64 {
    let added = added_luminance(record);
    let lowest = if added < gsdf.darkest() { FIRST_INDEX } else { gsdf.index(added) };
    let free = (LAST_INDEX - LEAST_RANGE).saturating_sub(lowest);
    let above = match random.below(4) {
        0 => 0,
        1 => random.below(free.min(300) + 1),
        2 => random.below(free / 4 + 1),
        _ => random.below(free + 1),
    };
    luminance_at(random, gsdf, lowest + above).max(added)
}

/// F(M) for a sound job that begins at this luminance: N at its least, near it or anywhere above.
pub fn brightest(random: &mut Random, gsdf: &Gsdf, darkest: u64) -> u64 {
    let least = LAST_INDEX.min(gsdf.index(darkest) + LEAST_RANGE);
    let free = LAST_INDEX - least;
    let above = match random.below(5) {
        0 => 0,
        1 => random.below(free.min(100) + 1),
        2 => free,
        _ => random.below(free + 1),
    };
    luminance_at(random, gsdf, least + above)
}

/// F(0) around T(1).
fn first_at_limit(random: &mut Random, gsdf: &Gsdf, record: &mut Record) -> Ends {
    if random.below(2) == 0 && !record.lamps.is_empty() {
        record.lamps.iter_mut().for_each(|lux| *lux %= 60);
        record.settings[3] = 1;
    } else {
        record.settings[1] = 1;
    }
    let first = random.between(gsdf.darkest() - 2, gsdf.darkest() + 2);
    let last = brightest(random, gsdf, gsdf.darkest().max(first));
    Ends::of_curve(record, first, last)
}

/// F(0) below T(1), and F(M) there too, in the table or above it.
fn first_below_table(random: &mut Random, gsdf: &Gsdf, record: &mut Record) -> Ends {
    record.settings[1] = 1;
    let first = random.below(gsdf.darkest());
    let last = match random.below(4) {
        0 => random.between(first, gsdf.darkest() - 1),
        1 => random.between(gsdf.brightest() + 1, LARGEST_READING),
        _ => random.between(gsdf.darkest(), gsdf.brightest()),
    };
    Ends::of_curve(record, first, last)
}

/// F(M) around T(1023).
fn last_at_limit(random: &mut Random, gsdf: &Gsdf, record: &Record) -> Ends {
    let first = darkest(random, gsdf, record);
    Ends::of_curve(record, first, random.between(gsdf.brightest() - 1, gsdf.brightest() + 1))
}

/// N around 10,000.
fn range_at_limit(random: &mut Random, gsdf: &Gsdf, record: &Record) -> Ends {
    let first = darkest(random, gsdf, record);
    let top = gsdf.index(first) + random.between(LEAST_RANGE - 2, LEAST_RANGE + 2);
    Ends::of_curve(record, first, gsdf.luminance(LAST_INDEX.min(top)) - random.below(2))
}

/// 4 × A0 around the first reading.
fn mark_at_limit(random: &mut Random, gsdf: &Gsdf, record: &mut Record) -> Ends {
    record.lamps = (0..random.between(1, 8)).map(|_| random.between(1, 200)).collect();
    record.settings[3] = random.between(1, 100);
    let first = 4 * room_luminance(record) + random.below(3) - 1;
    let darkest = first + added_luminance(record);
    let last = brightest(random, gsdf, gsdf.darkest().max(darkest));
    Ends::of_curve(record, darkest, last)
}

/// Readings up to the largest, among them such that a sum of 32 bits comes back into the table.
fn beyond_table(random: &mut Random, gsdf: &Gsdf, record: &mut Record) -> Ends {
    let first = darkest(random, gsdf, record);
    let usual = Ends::of_curve(record, first, gsdf.brightest());
    let top = LARGEST_READING - random.below(3);
    match random.below(4) {
        0 => Ends { last: random.between(usual.last + 1, LARGEST_READING), ..usual },
        1 => Ends { last: top, ..usual },
        2 => Ends { first: top, last: top, ..usual },
        _ => {
            record.settings[1] = 0;
            record.settings[3] = 1_000;
            record.lamps = vec![2_000; 8];
            let added = added_luminance(record);
            let jlo = random.between(FIRST_INDEX, 60_000);
            let jhi = jlo + random.between(LEAST_RANGE, 2 * LEAST_RANGE);
            let wrapping = LARGEST_READING + 1 - added;
            Ends { first: wrapping + gsdf.luminance(jlo), last: wrapping + gsdf.luminance(jhi), added }
        }
    }
}

/// Ends for a record that has its settings and lamps; at some limits these are changed.
pub fn draw(random: &mut Random, gsdf: &Gsdf, record: &mut Record) -> Ends {
    match random.below(16) {
        0 => first_at_limit(random, gsdf, record),
        1 => first_below_table(random, gsdf, record),
        2 => last_at_limit(random, gsdf, record),
        3 => range_at_limit(random, gsdf, record),
        4 => mark_at_limit(random, gsdf, record),
        5 => beyond_table(random, gsdf, record),
        _ => {
            let first = darkest(random, gsdf, record);
            let last = brightest(random, gsdf, first);
            Ends::of_curve(record, first, last)
        }
    }
}
