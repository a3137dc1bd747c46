//! Even tables of any curve and targets.
use compare::even::{self, EvenValues, Lent};
use reference::even::Table;

use super::working_words;
use crate::comparison::field;
use crate::lent::Memory;
use crate::random::Random;

/// All luminances are below it.
pub const TOP: u64 = 1 << 26;
/// Working words for each target.
const ROW: usize = 32;

/// A curve that never falls, targets that rise strictly, and w.
#[derive(Clone, Debug)]
pub struct Problem {
    pub curve: Vec<u64>,
    pub targets: Vec<u64>,
    pub tolerance: u64,
}

fn narrow(luminances: &[u64]) -> Vec<u32> {
    luminances.iter().map(|&luminance| luminance as u32).collect()
}

impl Problem {
    /// What is wrong with the engine's answer where this table is expected, or none. Lent are as many entries, words and ends as are needed, or more.
    pub fn difference(&self, random: &mut Random, expected: Option<&Table>) -> Option<String> {
        let values = self.targets.len();
        let more = random.one_of(&[0, 1, 44]);
        let [mut starts, mut ends, mut table]: [Memory<u16>; 3] = [0; 3].map(|_| Memory::new(random, values + more));
        let (mut work, _) = working_words(random, ROW * values + more);
        let [kept_starts, kept_ends, mut expected_table] = [&starts, &ends, &table].map(Memory::clone);
        let expected_work = work.clone();
        let mut result = EvenValues { made: 0, worst_step: 0 };
        if let Some(expected) = expected {
            result = EvenValues { made: 1, worst_step: expected.worst_step };
            expected_table.slice().iter_mut().zip(&expected.entries).for_each(|(entry, &level)| *entry = level as u16);
        }
        let free = if expected.is_some() { ROW * values } else { 0 };
        let lent = Lent { starts: starts.slice(), ends: ends.slice(), table: table.slice(), work: work.slice() };
        let got = even::fill(&narrow(&self.curve), &narrow(&self.targets), self.tolerance as u16, lent);
        field("made", &[got.made], &[result.made])
            .or_else(|| field("worst step", &[got.worst_step], &[result.worst_step]))
            .or_else(|| table.difference("entries", &expected_table, 0))
            .or_else(|| work.difference("words", &expected_work, free))
            .or_else(|| starts.difference("starts", &kept_starts, values + more))
            .or_else(|| ends.difference("ends", &kept_ends, values + more))
    }
}

/// So many different numbers up to the largest, in rising order, anywhere or close together at a few places.
pub fn rising(random: &mut Random, count: usize, largest: u64) -> Vec<u64> {
    // Numbers that may be alike; to each as many are added as come before it.
    let free = largest + 1 - count as u64;
    let places: Vec<u64> = (0..2).map(|_| random.below(free + 1)).collect();
    let anywhere = random.below(2) == 0;
    let mut numbers: Vec<u64> = (0..count).map(|_| if anywhere { random.below(free + 1) } else { random.one_of(&places) }).collect();
    numbers.sort_unstable();
    (0..).zip(numbers).map(|(place, number)| place + number).collect()
}

/// So many luminances, some alike, at targets, at a limit of their error, a unit beyond it, or anywhere below the largest.
pub fn curve(random: &mut Random, levels: usize, targets: &[u64], tolerance: u64, largest: u64) -> Vec<u64> {
    let mut luminances: Vec<u64> = vec![];
    for _ in 0..levels {
        let target = random.one_of(targets);
        let error = tolerance * target / 1_000;
        let luminance = match random.below(8) {
            0 => target,
            1 => target - error,
            2 => target + error,
            3 => (target - error).saturating_sub(1),
            4 => target + error + 1,
            5 => target - error + random.below(2 * error + 1),
            6 if !luminances.is_empty() => random.one_of(&luminances),
            _ => random.below(largest + 1),
        };
        luminances.push(luminance.min(largest));
    }
    luminances.sort_unstable();
    luminances
}

/// Any w, and often one at its ends.
pub fn tolerance(random: &mut Random) -> u64 {
    let any = random.below(1_001);
    random.one_of(&[0, 1, 50, 200, 500, 999, 1_000, 1_000, any, any])
}
