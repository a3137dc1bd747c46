//! The even table of one curve and of more and more targets.
//!
//! With an error of 1,000 the lowest level is allowed at every target, so that the search begins at a worst step of 1,000; and as the curve goes
//! through all targets, it ends at 0. So each number of targets takes ten passes over its rows, and none ends early.
use compare::even::{EvenValues, Lent};
use reference::gsdf::Gsdf;
use reference::target::Range;

use crate::side::Side;

/// The levels of the curve, and the most targets.
pub const MOST: usize = 1_024;
const TOLERANCE: u16 = 1_000;
const NUMBERS: [usize; 4] = [128, 256, 512, MOST];

/// What each side should give.
pub const RESULT: EvenValues = EvenValues { made: 1, worst_step: 0 };

pub struct Growth {
    curve: Vec<u32>,
    /// So many for each of the numbers, at even distances along the curve.
    targets: [Vec<u32>; 4],
}

impl Growth {
    pub fn new() -> Growth {
        let range = Range { jlo: 8_000, jhi: 80_000 };
        let curve: Vec<u32> = range.targets(&Gsdf::from_data_file(), MOST as u64 - 1).iter().map(|&luminance| luminance as u32).collect();
        let targets = NUMBERS.map(|number| curve.iter().copied().step_by(MOST / number).collect());
        Growth { curve, targets }
    }

    /// How many targets there are.
    pub fn values(&self, place: u32) -> usize {
        self.targets[place as usize].len()
    }

    #[inline(always)]
    pub fn fill(&self, side: Side, place: u32, lent: Lent) -> EvenValues {
        side.even_fill(&self.curve, &self.targets[place as usize], TOLERANCE, lent)
    }
}
