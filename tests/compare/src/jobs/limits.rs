//! Checks of which one pair is at the limit of its class or far beyond it, and every other pair passes.
use reference::contrast::{limit, PAIRS};
use reference::gsdf::{Gsdf, LAST_INDEX};
use reference::target::Range;

use super::ends::LEAST_RANGE;
use super::factors::{any, both, Factor, Interval, Solutions};
use crate::random::Random;

/// Any ends that are far enough apart.
pub const ANY_ENDS: (u64, u64) = (LAST_INDEX - LEAST_RANGE, LAST_INDEX);
/// How many ends are tried; few leave a pair with a given excess.
const TRIES: usize = 10_000_000;

/// The limits of one pair: |X − Y| × n ≤ Y where X / Y is at least (n − 1) / n and at most (n + 1) / n.
struct Limits {
    least: Factor,
    most: Factor,
}

impl Limits {
    fn new(c: u64, h: u64, class: u64) -> Limits {
        let parts = limit(class) as i64;
        Limits { least: Factor::new(c, h, parts - 1, parts), most: Factor::new(c, h, parts + 1, parts) }
    }

    fn side(&self, high: bool) -> Factor {
        if high {
            self.most
        } else {
            self.least
        }
    }

    /// All p and s in these intervals for which |X − Y| × n is Y and this excess, to this side.
    fn with_excess(&self, high: bool, excess: i64, before: Interval, after: Interval) -> Option<Solutions> {
        self.side(high).solutions(if high { excess } else { -excess }, before, after)
    }

    /// Where a pair from here ends, if it passes.
    fn after(&self, (least, most): Interval) -> Interval {
        (self.least.least_after(least), self.most.most_after(most))
    }

    /// Where a pair to here begins, if it passes.
    fn before(&self, (least, most): Interval) -> Interval {
        (self.most.least_before(least), self.least.most_before(most))
    }
}

/// How far off a pair is.
#[derive(Clone, Copy, Debug, PartialEq)]
pub enum Off {
    /// As far as it passes, to the unit of s.
    Limit { high: bool },
    /// |X − Y| × n is Y and this excess: −1, 0 or 1.
    Excess { high: bool, excess: i64 },
    /// s is p.
    Equal,
    /// s is less than p.
    Fall,
    /// The deviation is this or more.
    High(i64),
}

impl Off {
    /// p and s in these intervals, where c to h is expected.
    fn patches(self, random: &mut Random, limits: &Limits, (c, h): (u64, u64), before: Interval, after: Interval) -> Option<(u64, u64)> {
        match self {
            Off::Limit { high } => {
                let factor = limits.side(high);
                if !factor.exists() {
                    return None;
                }
                let p = any(random, both(before, (factor.least_before(after.0), factor.most_before(after.1))))?;
                Some((p, if high { factor.most_after(p) } else { factor.least_after(p) }))
            }
            Off::Excess { high, excess } => limits.with_excess(high, excess, before, after).map(|solutions| solutions.any(random)),
            Off::Equal => any(random, both(before, after)).map(|p| (p, p)),
            Off::Fall => {
                let p = any(random, both(before, (after.0 + 1, u64::MAX)))?;
                let most = after.1.min(p - 1);
                let s = any(random, (after.0, most))?;
                Some((p, random.one_of(&[most, s])))
            }
            Off::High(deviation) => {
                let factor = Factor::new(c, h, 1_000 + deviation, 1_000);
                if !factor.exists() {
                    return None;
                }
                let p = any(random, both(before, (0, factor.most_before(after.1))))?;
                any(random, both(after, (factor.least_after(p), u64::MAX))).map(|s| (p, s))
            }
        }
    }
}

/// One pair, and how far off it is.
#[derive(Clone, Copy, Debug)]
pub struct OnePair {
    pub pair: usize,
    pub off: Off,
}

/// All luminances of an index.
fn of_index(gsdf: &Gsdf, k: u64) -> Interval {
    let here = gsdf.luminance(k);
    (here, if k == LAST_INDEX { here } else { gsdf.luminance(k + 1) - 1 })
}

impl OnePair {
    /// Whether patches near the expected ones are so far off; few have a given excess, and it is seen before the other pairs are looked at.
    fn is_near(&self, gsdf: &Gsdf, class: u64, ends: Range) -> bool {
        let (high, excess) = match self.off {
            Off::Excess { high, excess } => (high, excess),
            _ => return true,
        };
        let [c, h] = [self.pair, self.pair + 1].map(|patch| gsdf.luminance(ends.jlo + ends.width() * patch as u64 / PAIRS as u64));
        let before = if self.pair == 0 { of_index(gsdf, ends.jlo) } else { (c / 2, 2 * c) };
        let after = if self.pair + 1 == PAIRS { of_index(gsdf, ends.jhi) } else { (h / 2, 2 * h) };
        Limits::new(c, h, class).with_excess(high, excess, before, after).is_some()
    }

    /// 18 luminances, none below the room light, whose ends have these indices; nothing where there are none.
    pub fn draw(&self, random: &mut Random, gsdf: &Gsdf, class: u64, added: u64, ends: Range) -> Option<Vec<u64>> {
        if !self.is_near(gsdf, class, ends) {
            return None;
        }
        let expected = ends.targets(gsdf, PAIRS as u64);
        let limits: Vec<Limits> = expected.windows(2).map(|pair| Limits::new(pair[0], pair[1], class)).collect();
        let table = (gsdf.darkest().max(added), gsdf.brightest());
        // What can be reached from the first patch, and from where the last can be.
        let mut reached = vec![both(table, of_index(gsdf, ends.jlo))];
        limits.iter().for_each(|pair| reached.push(both(table, pair.after(reached[reached.len() - 1]))));
        let mut leading = vec![of_index(gsdf, ends.jhi)];
        limits.iter().rev().for_each(|pair| leading.push(both(table, pair.before(leading[leading.len() - 1]))));
        leading.reverse();
        let pair = self.pair;
        let (p, s) = self.off.patches(random, &limits[pair], (expected[pair], expected[pair + 1]), reached[pair], leading[pair + 1])?;
        let mut luminances = vec![0; PAIRS + 1];
        luminances[pair] = p;
        luminances[pair + 1] = s;
        for i in (0..pair).rev() {
            let next = luminances[i + 1];
            luminances[i] = any(random, both(reached[i], limits[i].before((next, next))))?;
        }
        for i in pair + 1..PAIRS {
            let here = luminances[i];
            luminances[i + 1] = any(random, both(leading[i + 1], limits[i].after((here, here))))?;
        }
        Some(luminances)
    }

    /// The same with ends that are drawn: the first index is at most `highest`, and the last at most so many more.
    pub fn draw_with_ends(&self, random: &mut Random, gsdf: &Gsdf, class: u64, added: u64, (highest, widest): (u64, u64)) -> Vec<u64> {
        let lowest = gsdf.index(added.max(gsdf.darkest()));
        let mut any = || {
            let jlo = random.between(lowest, highest);
            let jhi = random.between(jlo + LEAST_RANGE, LAST_INDEX.min(jlo + widest));
            self.draw(random, gsdf, class, added, Range { jlo, jhi })
        };
        (0..TRIES).find_map(|_| any()).expect("some ends leave such a check")
    }

    /// One unit further off to this side; the first and the last patch stay as they are.
    pub fn exceed(&self, high: bool, luminances: &mut [u64]) {
        let last_pair = self.pair + 1 == PAIRS;
        let patch = &mut luminances[if last_pair { self.pair } else { self.pair + 1 }];
        if high == last_pair {
            *patch -= 1;
        } else {
            *patch += 1;
        }
    }
}
