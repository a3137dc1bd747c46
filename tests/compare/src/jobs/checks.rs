//! The readings of a check: of panels that follow the display function, of others, and such that no check can be made of them.
use reference::contrast::PAIRS;
use reference::gsdf::{Gsdf, LAST_INDEX};
use reference::record::Record;
use reference::target::Range;

use super::ends::{self, Ends, LARGEST_READING, LEAST_RANGE};
use super::limits::{Off, OnePair};
use crate::random::Random;

const PATCHES: usize = PAIRS + 1;

/// The indices of the first and the last patch, far enough apart: those of the panel where they are, or others.
fn outer(random: &mut Random, gsdf: &Gsdf, record: &Record, ends: &Ends) -> Range {
    if random.below(2) == 0 && ends.in_table(gsdf) && LEAST_RANGE <= ends.range(gsdf).width() {
        return ends.range(gsdf);
    }
    let first = ends::darkest(random, gsdf, record);
    Range::between(gsdf, first, ends::brightest(random, gsdf, first))
}

/// What is expected, or off by a unit or by a share of it.
fn following(random: &mut Random, gsdf: &Gsdf, outer: Range) -> Vec<u64> {
    let share = random.one_of(&[0, 0, 1_000_000, 1_000, 100, 10]);
    let off = |random: &mut Random, luminance: u64| match share {
        0 => luminance,
        _ => luminance - luminance / share + random.below(2 * (luminance / share) + 2),
    };
    outer.targets(gsdf, PAIRS as u64).into_iter().map(|luminance| off(random, luminance)).collect()
}

/// Any pair, and often the first or the last.
fn any_pair(random: &mut Random) -> usize {
    let any = random.place(PAIRS);
    random.one_of(&[0, PAIRS - 1, any, any])
}

/// A pair at the limit of the class or of the other one, or a unit further; what is expected, where the ends leave no such pair.
fn at_limit(random: &mut Random, gsdf: &Gsdf, record: &Record, ends: &Ends, outer: Range) -> Vec<u64> {
    let pair = any_pair(random);
    let high = random.below(2) == 0;
    let limit = OnePair { pair, off: Off::Limit { high } };
    let class = random.one_of(&[record.class(), record.class(), 1, 2]);
    let mut luminances = match limit.draw(random, gsdf, class, ends.added, outer) {
        Some(luminances) => luminances,
        None => return following(random, gsdf, outer),
    };
    if random.below(2) == 0 {
        limit.exceed(high, &mut luminances);
    }
    luminances
}

/// One pair far off, and no other beyond the limit; what is expected, where the ends leave no such pair.
fn alone(random: &mut Random, gsdf: &Gsdf, record: &Record, ends: &Ends, outer: Range) -> Vec<u64> {
    let high = Off::High(random.one_of(&[301, 501, 1_001]));
    let pair = OnePair { pair: any_pair(random), off: random.one_of(&[Off::Equal, Off::Fall, high]) };
    pair.draw(random, gsdf, record.class(), ends.added, outer).unwrap_or_else(|| following(random, gsdf, outer))
}

/// A panel that nobody calibrated.
fn power(random: &mut Random, gsdf: &Gsdf, outer: Range) -> Vec<u64> {
    let exponent = 0.5 + 3.0 * random.share();
    let (first, last) = (gsdf.luminance(outer.jlo), gsdf.luminance(outer.jhi));
    let rise = |i: usize| (last - first) as f64 * (i as f64 / PAIRS as f64).powf(exponent);
    (0..PATCHES).map(|i| first + rise(i) as u64).collect()
}

/// Between ends that are kept: anything, the ends of the table, or the same again.
fn scattered(random: &mut Random, gsdf: &Gsdf, outer: Range) -> Vec<u64> {
    let kinds = random.between(1, 3);
    let mut luminances = outer.targets(gsdf, PAIRS as u64);
    for i in 1..PAIRS {
        luminances[i] = match random.below(kinds) {
            0 => random.one_of(&[gsdf.darkest(), gsdf.brightest()]),
            1 => random.between(gsdf.darkest(), gsdf.brightest()),
            _ => luminances[i - 1],
        };
    }
    luminances
}

/// Other ends: Nc around 10,000, around 0, the same below 0, or anything.
fn range_at_limit(random: &mut Random, gsdf: &Gsdf, outer: Range, luminances: &mut [u64]) {
    let low = outer.jlo.min(LAST_INDEX - LEAST_RANGE - 2);
    let apart = match random.below(4) {
        0 | 1 => random.between(LEAST_RANGE - 1, LEAST_RANGE + 1),
        2 => random.below(3),
        _ => random.below(LAST_INDEX - low + 1),
    };
    let (first, last) = random.one_of(&[(low, low + apart), (low, low + apart), (low + apart, low)]);
    luminances[0] = gsdf.luminance(first);
    luminances[PAIRS] = gsdf.luminance(last);
}

/// One reading outside the table, by a unit or by far, also such that a sum of 32 bits comes back into it.
fn outside(random: &mut Random, gsdf: &Gsdf, added: u64, readings: &mut [u64]) {
    let (darkest, brightest) = (gsdf.darkest(), gsdf.brightest());
    let any_place = random.place(PATCHES);
    let place = random.one_of(&[0, PAIRS, any_place]);
    readings[place] = match random.below(6) {
        0 if added < darkest => darkest - 1 - added,
        1 if added < darkest => random.below(darkest - added),
        2 => random.between(brightest + 1 - added, LARGEST_READING),
        3 => LARGEST_READING,
        4 => LARGEST_READING - random.below(added + 1),
        _ => brightest + 1 - added,
    };
}

/// No readings, or 18, for a record that has all the rest.
pub fn draw(random: &mut Random, gsdf: &Gsdf, record: &Record, ends: &Ends) -> Vec<u64> {
    let outer = outer(random, gsdf, record, ends);
    let mut luminances = match random.below(18) {
        0..=3 => return vec![],
        4 => return (0..PATCHES).map(|_| random.luminance()).collect(),
        5..=8 => at_limit(random, gsdf, record, ends, outer),
        9 | 10 => alone(random, gsdf, record, ends, outer),
        11 => power(random, gsdf, outer),
        12 | 13 => scattered(random, gsdf, outer),
        _ => following(random, gsdf, outer),
    };
    if random.below(8) == 0 {
        range_at_limit(random, gsdf, outer, &mut luminances);
    }
    let mut readings: Vec<u64> = luminances.into_iter().map(|luminance| luminance.saturating_sub(ends.added)).collect();
    if random.below(8) == 0 {
        outside(random, gsdf, ends.added, &mut readings);
    }
    readings
}
