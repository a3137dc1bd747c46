//! The contrast check, in numbers of 128 bits; both indices by looking at every one.
use crate::gsdf::Gsdf;
use crate::target::Range;

/// How many pairs of neighbouring patches there are.
pub const PAIRS: usize = 17;
const LEAST_RANGE: i128 = 10_000;

/// Two neighbouring patches: X and Y.
#[derive(Clone, Debug, PartialEq)]
pub struct Pair {
    pub x: i128,
    pub y: i128,
}

impl Pair {
    /// From p to s, where c to h is expected.
    pub fn new(p: u64, s: u64, c: u64, h: u64) -> Pair {
        let [p, s, c, h] = [p, s, c, h].map(i128::from);
        Pair { x: (s - p) * (h + c), y: (h - c) * (s + p) }
    }

    /// In parts per thousand, rounded down: the remainder is not negative.
    pub fn deviation(&self) -> i128 {
        assert!(0 < self.y);
        (1_000 * (self.x - self.y)).div_euclid(self.y)
    }

    /// |X − Y| × 10 ≤ Y in class 1, × 5 in class 2.
    pub fn passes(&self, class: u64) -> bool {
        (self.x - self.y).abs() * limit(class) <= self.y
    }

    /// Whether it passes with nothing to spare.
    pub fn is_at_limit(&self, class: u64) -> bool {
        (self.x - self.y).abs() * limit(class) == self.y
    }
}

/// One part in so many is the largest deviation that passes.
pub fn limit(class: u64) -> i128 {
    match class {
        1 => 10,
        2 => 5,
        class => panic!("there is no class {class}"),
    }
}

/// A check that was measured.
#[derive(Clone, Debug, PartialEq)]
pub struct Contrast {
    /// Nc.
    pub range: i128,
    /// v(0) to v(17).
    pub measured: Vec<u64>,
    /// e(0) to e(17).
    pub expected: Vec<u64>,
    pub pairs: Vec<Pair>,
    /// Of each pair.
    pub deviations: Vec<i128>,
    pub passes: bool,
}

impl Contrast {
    /// The check of v(0) to v(17), or 12 or 13.
    pub fn of(gsdf: &Gsdf, measured: Vec<u64>, class: u64) -> Result<Contrast, u32> {
        assert_eq!(measured.len(), PAIRS + 1);
        if measured.iter().any(|&v| v < gsdf.darkest() || gsdf.brightest() < v) {
            return Err(12);
        }
        let [jlo, jhi] = [measured[0], measured[PAIRS]].map(|v| gsdf.scanned_index(v));
        let range = i128::from(jhi) - i128::from(jlo);
        if range < LEAST_RANGE {
            return Err(13);
        }
        let expected = Range { jlo, jhi }.targets(gsdf, PAIRS as u64);
        let pair = |i: usize| Pair::new(measured[i], measured[i + 1], expected[i], expected[i + 1]);
        let pairs: Vec<Pair> = (0..PAIRS).map(pair).collect();
        let deviations = pairs.iter().map(Pair::deviation).collect();
        let passes = pairs.iter().all(|pair| pair.passes(class));
        Ok(Contrast { range, measured, expected, pairs, deviations, passes })
    }
}
