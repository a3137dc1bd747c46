//! Sweeps of displays of every shape.
use std::collections::BTreeSet;

use reference::gsdf::Gsdf;
use reference::record::Record;

use super::ends::Ends;
use crate::random::Random;

/// How the luminance rises with the drive level.
#[derive(Clone, Copy, Debug, PartialEq)]
pub enum Shape {
    Linear,
    Gamma,
    SCurve,
    FlatStart,
    FlatMiddle,
    FlatEnd,
    Steps,
    /// Nearly flat, but for one place.
    Jump,
    Scattered,
    /// Even in the index, so that levels come close to the targets.
    Perceptual,
    /// Each target is the luminance of a level or more, as far as the ends allow.
    Exact,
    /// Levels equally far from a target, nearly so, and plateaus around it.
    Ties,
    /// At the targets, but with no level between the least luminance allowed at one P-value and the most allowed at the next, or a unit further.
    Gap,
}

/// All but the gap, which is for the even table.
pub const SHAPES: [Shape; 12] = [
    Shape::Linear,
    Shape::Gamma,
    Shape::SCurve,
    Shape::FlatStart,
    Shape::FlatMiddle,
    Shape::FlatEnd,
    Shape::Steps,
    Shape::Jump,
    Shape::Scattered,
    Shape::Perceptual,
    Shape::Exact,
    Shape::Ties,
];

/// The share of the rise that each share of the levels has reached, from 0 to 1.
fn response(random: &mut Random, shape: Shape) -> Box<dyn Fn(f64) -> f64> {
    let part = 0.1 + 0.8 * random.share();
    match shape {
        Shape::Gamma => {
            let gamma = 1.8 + 0.8 * random.share();
            Box::new(move |x| x.powf(gamma))
        }
        Shape::SCurve => {
            let steepness = 2.0 + 4.0 * random.share();
            Box::new(move |x| x.powf(steepness) / (x.powf(steepness) + (1.0 - x).powf(steepness)))
        }
        Shape::FlatStart => Box::new(move |x| ((x - part) / (1.0 - part)).max(0.0)),
        Shape::FlatMiddle => {
            let (from, to) = (part / 2.0, 0.5 + part / 2.0);
            Box::new(move |x| part * (x / from).min(1.0) + (1.0 - part) * ((x - to) / (1.0 - to)).max(0.0))
        }
        Shape::FlatEnd => Box::new(move |x| (x / part).min(1.0)),
        Shape::Steps => {
            let steps = random.between(1, 40) as f64;
            Box::new(move |x| (steps * x).floor() / steps)
        }
        Shape::Jump => Box::new(move |x| if x < part { 0.02 * x } else { 1.0 - 0.02 * (1.0 - x) }),
        _ => Box::new(|x| x),
    }
}

/// Two DDLs, a few, many or all; at even distances or anywhere.
fn positions(random: &mut Random, last: u64) -> Vec<u64> {
    let readings = match random.below(5) {
        0 => 2,
        1 => random.between(3, 17),
        2 => random.between(18, 64),
        3 => random.between(18, last),
        _ => last + 1,
    };
    if random.below(2) == 0 {
        return (0..readings).map(|i| last * i / (readings - 1)).collect();
    }
    let mut ddls = BTreeSet::from([0, last]);
    while (ddls.len() as u64) < readings {
        ddls.insert(random.below(last));
    }
    ddls.into_iter().collect()
}

/// So many readings between the ends, few or many of them different.
fn scattered(random: &mut Random, ends: &Ends, readings: usize) -> Vec<u64> {
    let different = random.one_of(&[2, 20, 2_000]);
    let values: Vec<u64> = (0..different).map(|_| random.between(ends.first, ends.last)).collect();
    (0..readings).map(|_| random.one_of(&values)).collect()
}

/// A luminance with the index that is as far up the range as the DDL is up the levels.
fn perceptual(gsdf: &Gsdf, ends: &Ends, ddls: &[u64]) -> Vec<u64> {
    let range = ends.range(gsdf);
    let last = ddls[ddls.len() - 1];
    let luminance = |ddl: &u64| gsdf.luminance(range.jlo + range.width() * ddl / last);
    ddls.iter().map(|ddl| luminance(ddl).saturating_sub(ends.added)).collect()
}

/// A reading for every level, at the targets.
fn at_targets(gsdf: &Gsdf, ends: &Ends, ddls: &[u64]) -> Vec<u64> {
    let targets = ends.range(gsdf).targets(gsdf, 255);
    let last = ddls[ddls.len() - 1];
    ddls.iter().map(|ddl| targets[(255 * ddl / last) as usize].saturating_sub(ends.added)).collect()
}

/// A reading for every level, most of them near targets and some alike.
fn around_targets(random: &mut Random, gsdf: &Gsdf, ends: &Ends, levels: usize) -> Vec<u64> {
    let targets = ends.range(gsdf).targets(gsdf, 255);
    let mut curve = vec![];
    for three in targets.windows(3) {
        let target = three[1];
        let near = random.below((target - three[0]).min(three[2] - target) / 2 + 1);
        match random.below(if levels < 512 { 20 } else { 10 }) {
            0 => curve.extend([target - near, target + near]),
            1 => curve.extend([target - near, target - near, target + near, target + near]),
            2 => curve.extend([target - near, target + near + 1]),
            3 => curve.extend([target - near, target + near - 1]),
            4 => curve.extend([target, target]),
            _ => {}
        }
    }
    curve.push(ends.last + ends.added);
    readings_of(random, ends, curve, levels)
}

/// A reading for so many levels, of these luminances; where they are too few, some twice or more often.
fn readings_of(random: &mut Random, ends: &Ends, curve: Vec<u64>, levels: usize) -> Vec<u64> {
    let mut luminances: Vec<u64> = curve.into_iter().map(|luminance| luminance.saturating_sub(ends.added)).take(levels).collect();
    while luminances.len() < levels {
        luminances.push(random.one_of(&luminances));
    }
    luminances
}

/// A reading for every level. The gap is often at the first steps or the last, or where its ends are at the limit of the allowed error to the unit.
fn with_gap(random: &mut Random, gsdf: &Gsdf, ends: &Ends, record: &Record) -> Vec<u64> {
    let targets = ends.range(gsdf).targets(gsdf, 255);
    let error = |p: usize| record.tolerance() * targets[p];
    let whole: Vec<usize> = (0..255).filter(|&p| error(p) % 1_000 == 0 || error(p + 1) % 1_000 == 0).collect();
    let p = match random.below(5) {
        0 => random.place(3),
        1 => 254 - random.place(3),
        2 | 3 if !whole.is_empty() => random.one_of(&whole),
        _ => random.place(255),
    };
    let (low, high) = (targets[p] - error(p) / 1_000, targets[p + 1] + error(p + 1) / 1_000);
    let (low, high) = random.one_of(&[(low, high), (low.saturating_sub(1), high), (low, high + 1)]);
    let mut curve: Vec<u64> = targets.into_iter().filter(|&target| target < low || high < target).collect();
    curve.extend([low, high]);
    readings_of(random, ends, curve, record.last_ddl() as usize + 1)
}

/// The DDLs and luminances of a sweep with these ends, for a record that has its settings. Where they leave the table there are no targets, and a shape that needs them is linear.
pub fn sweep(random: &mut Random, gsdf: &Gsdf, shape: Shape, ends: &Ends, record: &Record) -> (Vec<u64>, Vec<u64>) {
    let last_ddl = record.last_ddl();
    let every_level = matches!(shape, Shape::Exact | Shape::Ties | Shape::Gap);
    let ddls = if every_level { (0..=last_ddl).collect() } else { positions(random, last_ddl) };
    let mut luminances: Vec<u64> = match shape {
        Shape::Scattered => scattered(random, ends, ddls.len()),
        Shape::Perceptual if ends.in_table(gsdf) => perceptual(gsdf, ends, &ddls),
        Shape::Exact if ends.in_table(gsdf) => at_targets(gsdf, ends, &ddls),
        Shape::Ties if ends.in_table(gsdf) => around_targets(random, gsdf, ends, ddls.len()),
        Shape::Gap if ends.in_table(gsdf) => with_gap(random, gsdf, ends, record),
        _ => {
            let response = response(random, shape);
            let rise = (ends.last - ends.first) as f64;
            ddls.iter().map(|&ddl| ends.first + (rise * response(ddl as f64 / last_ddl as f64)) as u64).collect()
        }
    };
    luminances.sort_unstable();
    luminances.iter_mut().for_each(|luminance| *luminance = (*luminance).clamp(ends.first, ends.last));
    luminances[0] = ends.first;
    luminances[ddls.len() - 1] = ends.last;
    (ddls, luminances)
}
