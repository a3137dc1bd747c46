//! Any number of targets and levels.
use reference::even;

use super::problems::{curve, rising, tolerance, Problem, TOP};
use crate::comparison::Comparison;
use crate::random::Random;
use crate::tally::Tally;

/// Numbers of targets, and of levels around the ends of words.
const VALUES: [usize; 8] = [1, 2, 3, 17, 255, 256, 257, 1_024];
const LEVELS: [usize; 16] = [1, 2, 3, 31, 32, 33, 63, 64, 65, 255, 256, 257, 992, 993, 1_023, 1_024];
/// How many problems there are of each; of long ones, for which the reference takes long, there is one.
const EACH: u64 = 4;
const LONG: usize = 200_000;
/// How often a table has to be made at least, and found not to be there.
const LEAST: u64 = 100;

/// Targets that the levels come near to, mostly: few of them, far apart, or such that neighbours are within the error.
fn draw(random: &mut Random, values: usize, levels: usize) -> Problem {
    let any = random.between(4 * values as u64, TOP - 1);
    let largest = random.one_of(&[4 * values as u64, 100_000, any, TOP - 1]);
    let tolerance = tolerance(random);
    let targets = rising(random, values, largest);
    let mut curve = curve(random, levels, &targets, tolerance, largest);
    if random.below(2) == 0 {
        // A level for each target, as far as there are levels.
        let first = random.place(levels);
        curve[first..].iter_mut().zip(&targets).for_each(|(luminance, &target)| *luminance = target);
        curve.sort_unstable();
    }
    Problem { curve, targets, tolerance }
}

/// As many targets as there can be, in the brighter half, and so many levels at even distances there.
fn longest(random: &mut Random, levels: u64, tolerance: u64) -> Problem {
    let half = TOP / 2;
    let targets = rising(random, 65_536, half - 1).into_iter().map(|target| half + target).collect();
    Problem { curve: (0..levels).map(|d| half + d * half / levels).collect(), targets, tolerance }
}

pub fn results() -> Vec<bool> {
    let mut random = Random::new(29);
    let mut all = Comparison::new("even: any length");
    let mut seen = Tally::new("even: of any length", ["made", "no table"]);
    let mut problems = vec![];
    for (values, levels) in VALUES.into_iter().flat_map(|values| LEVELS.map(|levels| (values, levels))) {
        let each = if values * levels < LONG { EACH } else { 1 };
        problems.extend((0..each).map(|_| draw(&mut random, values, levels)));
    }
    for (levels, tolerance) in [(1, 1_000), (1, 400), (3, 500), (16, 100), (64, 10), (64, 50)] {
        problems.push(longest(&mut random, levels, tolerance));
    }
    for problem in problems {
        let table = even::table(&problem.curve, &problem.targets, problem.tolerance);
        seen.add(usize::from(table.is_none()));
        let about = format!("{} levels, {} targets, error {}", problem.curve.len(), problem.targets.len(), problem.tolerance);
        all.count(problem.difference(&mut random, table.as_ref()).map(|difference| format!("{about}: {difference}")));
    }
    vec![all.ended(109 * EACH + 19 + 6), seen.ended(LEAST)]
}
