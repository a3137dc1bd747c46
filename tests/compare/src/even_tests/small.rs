//! Small problems, for which every list of levels is looked at.
use reference::even::{self, is_allowed, worst_step, Table};

use super::problems::{curve, rising, tolerance, Problem, TOP};
use crate::comparison::Comparison;
use crate::random::Random;
use crate::tally::Tally;

const PROBLEMS: u64 = 30_000;
/// How often each kind has to be seen at least.
const LEAST: u64 = 200;
const MOST_LEVELS: usize = 5;
const MOST_TARGETS: usize = 5;

/// Every list of so many levels below `levels`, falling or not, in the order in which a lower level at the first difference comes first.
fn lists(levels: usize, length: usize) -> Vec<Vec<u64>> {
    let mut lists = vec![vec![]];
    for _ in 0..length {
        let longer = |list: Vec<u64>| (0..levels as u64).map(move |level| [&list[..], &[level]].concat());
        lists = lists.into_iter().flat_map(longer).collect();
    }
    lists
}

/// The even table among all lists that keep within the error, or nothing where there is no such list.
fn by_every_list(problem: &Problem) -> Option<Table> {
    let Problem { curve, targets, tolerance } = problem;
    let keeps = |list: &Vec<u64>| list.iter().zip(targets).all(|(&d, &target)| is_allowed(curve[d as usize], target, *tolerance));
    let within: Vec<Vec<u64>> = lists(curve.len(), targets.len()).into_iter().filter(keeps).collect();
    if within.is_empty() {
        return None;
    }
    let tables: Vec<Vec<u64>> = within.into_iter().filter(|list| list.windows(2).all(|pair| pair[0] <= pair[1])).collect();
    let steps: Vec<u64> = tables.iter().map(|table| worst_step(curve, targets, table)).collect();
    let worst_step = *steps.iter().min().expect("where a list keeps within the error, one does that never falls");
    let mut even = tables.into_iter().zip(&steps).filter(|(_, &step)| step == worst_step).map(|(table, _)| table);
    let entries = even.next().expect("a table has the least");
    Some(Table { entries, worst_step, tie: even.next().is_some() })
}

/// A target of 1,000 × m and one a unit above it, with a level that is allowed at the first only and one that is allowed at the second only: a step of 1,998 × m + 1, where 1 is wanted. Then targets above, which may want a large step.
fn with_jump(random: &mut Random, m: u64) -> Problem {
    let (dark, bright) = (m, 1_999 * m + 1);
    let mut targets = vec![1_000 * m, 1_000 * m + 1];
    let more = random.place(MOST_TARGETS - 1);
    targets.extend(rising(random, more, TOP - 1 - bright).iter().map(|above| bright + above));
    let mut curve = vec![dark, bright];
    curve.extend((0..random.place(MOST_LEVELS - 1)).map(|_| random.one_of(&[0, dark, bright, TOP - 1])));
    curve.sort_unstable();
    Problem { curve, targets, tolerance: 999 }
}

/// With which all of it is below the top.
const LARGEST_M: u64 = (TOP - 2 - MOST_TARGETS as u64) / 1_999;

/// Few levels and targets, of small luminances, so that many tables are alike, of middling ones or of large ones.
fn draw(random: &mut Random) -> Problem {
    if random.below(20) == 0 {
        let m = random.between(1, LARGEST_M);
        return with_jump(random, m);
    }
    let largest = random.one_of(&[8, 30, 1_000, TOP - 1]);
    let count = 1 + random.place(MOST_TARGETS);
    let targets = rising(random, count, largest);
    let tolerance = tolerance(random);
    let levels = 1 + random.place(MOST_LEVELS);
    Problem { curve: curve(random, levels, &targets, tolerance, largest), targets, tolerance }
}

const KINDS: [&str; 10] =
    ["made", "no table", "worst step 0", "1 to 999", "1,000", "more", "more than 32 bits", "a tie", "no tie", "all levels and targets"];

fn add(seen: &mut Tally, problem: &Problem, table: Option<&Table>) {
    let Some(table) = table else { return seen.add(1) };
    seen.add(0);
    seen.add(match table.worst_step {
        0 => 2,
        1..=999 => 3,
        1_000 => 4,
        _ => 5,
    });
    if 1 << 32 <= table.worst_step {
        seen.add(6);
    }
    seen.add(if table.tie { 7 } else { 8 });
    if problem.curve.len() == MOST_LEVELS && problem.targets.len() == MOST_TARGETS {
        seen.add(9);
    }
}

/// The steps of the marked examples, and a few more tables that can be seen at once.
fn marked_steps() -> Vec<(Problem, u64, Vec<u64>)> {
    let problem = |curve: &[u64], targets: &[u64]| Problem { curve: curve.to_vec(), targets: targets.to_vec(), tolerance: 1_000 };
    vec![
        (problem(&[100, 122], &[100, 121]), 48, vec![0, 1]),
        (problem(&[100], &[100, 117]), 1_000, vec![0, 0]),
        (problem(&[7, 7, 7], &[7]), 0, vec![0]),
        (problem(&[100, 121, 122], &[100, 121]), 0, vec![0, 1]),
        (problem(&[100, 100, 100], &[100, 101, 102]), 1_000, vec![0, 0, 0]),
    ]
}

/// A step of 10,000,001 where 1 is wanted, and then a level that has to be left: where 20,416,125 is wanted, steps up to their product are as good, which is 765 in 32 bits.
fn large_product() -> Problem {
    let targets = vec![10_000_000, 10_000_001, 10_000_002, 30_416_127];
    Problem { curve: vec![5_000_000, 15_000_001, 30_416_127], targets, tolerance: 500 }
}

/// The darkest levels are one unit apart, and the higher one leads to a worst step that is one smaller.
fn one_apart() -> Problem {
    Problem { curve: vec![8_699, 8_700, 12_100], targets: vec![10_000, 11_000], tolerance: 200 }
}

/// Two targets, and a curve that ends at each level in turn, so that the levels allowed at the last target end at every place of a word; the last level but one is brighter than it should be.
fn every_end() -> bool {
    let mut random = Random::new(26);
    let mut all = Comparison::new("even: every end of the last row");
    for end in 13..1_024 {
        let mut curve: Vec<u64> = (0..=end).map(|d| 1_000_000 + 1_000 * d).collect();
        curve[end as usize - 1] += 300;
        let problem = Problem { targets: vec![curve[end as usize - 12], curve[end as usize]], curve, tolerance: 1 };
        let table = even::table(&problem.curve, &problem.targets, problem.tolerance);
        all.count(problem.difference(&mut random, table.as_ref()).map(|difference| format!("end {end}: {difference}")));
    }
    all.ended(1_011)
}

fn stated() -> bool {
    let mut random = Random::new(27);
    let mut all = Comparison::new("even: small problems, stated");
    let stated = Table { entries: vec![0, 1, 1, 2], worst_step: 10_000_000_000, tie: false };
    all.count(large_product().difference(&mut random, Some(&stated)));
    let stated = Table { entries: vec![1, 2], worst_step: 2_400, tie: false };
    all.count(one_apart().difference(&mut random, Some(&stated)));
    for (problem, worst_step, entries) in marked_steps() {
        let stated = Table { entries, worst_step, tie: false };
        all.count(problem.difference(&mut random, Some(&stated)).map(|difference| format!("{problem:?}: {difference}")));
    }
    for _ in 0..20 {
        let problem = with_jump(&mut random, LARGEST_M);
        let table = by_every_list(&problem);
        let largest = table.as_ref().map_or(false, |table| table.worst_step == 1_998_000 * LARGEST_M);
        let difference = (!largest).then(|| "the worst step should be that of the jump".to_string());
        let difference = difference.or_else(|| problem.difference(&mut random, table.as_ref()));
        all.count(difference.map(|difference| format!("{problem:?}: {difference}")));
    }
    all.ended(2 + 5 + 20)
}

/// Engine and reference against what every list gives.
fn drawn() -> Vec<bool> {
    let mut random = Random::new(28);
    let mut engine = Comparison::new("even: small problems");
    let mut other = Comparison::new("even: small problems, reference");
    let mut seen = Tally::new("even: among small problems", KINDS);
    for _ in 0..PROBLEMS {
        let problem = draw(&mut random);
        let table = by_every_list(&problem);
        add(&mut seen, &problem, table.as_ref());
        engine.count(problem.difference(&mut random, table.as_ref()).map(|difference| format!("{problem:?}: {difference}")));
        let of_reference = even::table(&problem.curve, &problem.targets, problem.tolerance);
        other.count((of_reference != table).then(|| format!("{problem:?}: {of_reference:?}, expected {table:?}")));
    }
    vec![engine.ended(PROBLEMS), other.ended(PROBLEMS), seen.ended(LEAST)]
}

pub fn results() -> Vec<bool> {
    let mut results = vec![stated(), every_end()];
    results.extend(drawn());
    results
}
