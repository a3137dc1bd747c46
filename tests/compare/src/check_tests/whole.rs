//! Deviations that are whole numbers before they are rounded, and such that are just below or just above.
use reference::contrast::PAIRS;
use reference::engine::Engine;
use reference::gsdf::{Gsdf, LAST_INDEX};

use super::{expected, job, without, Answer, Lent};
use crate::comparison::Comparison;
use crate::jobs::factors::Factor;
use crate::random::Random;

/// The whole numbers are −1,200 to 1,200.
const MOST: u64 = 1_200;
/// How many checks there are of each kind with any ends, and with bright ones.
const DRAWN: u64 = 200;
/// How many pairs are tried for each.
const TRIES: usize = 1_000_000;

/// Where a pair's deviation is: at a whole number, below it or above it.
#[derive(Clone, Copy, Debug)]
struct Place {
    pair: usize,
    deviation: i64,
    /// 0, −1 or 1.
    side: i64,
}

impl Place {
    /// s / p at the whole number, where these luminances are expected.
    fn factor(&self, luminances: &[u64]) -> Factor {
        Factor::new(luminances[self.pair], luminances[self.pair + 1], 1_000 + self.deviation, 1_000)
    }

    /// The luminances with others at this pair, as bright as they can be; nothing where there are none. With the whole number k, 1000 × X − (1000 + k) × Y is −1, 0 or 1 by the factor, and a multiple by the reduced one.
    fn patches(&self, gsdf: &Gsdf, mut luminances: Vec<u64>, factor: Factor) -> Option<Vec<u64>> {
        let table = (gsdf.darkest(), gsdf.brightest());
        let (p, s) = factor.solutions(self.side, table, table)?.last();
        luminances[self.pair] = p;
        luminances[self.pair + 1] = s;
        Some(luminances)
    }

    /// What the deviation is rounded to.
    fn rounded(&self) -> i64 {
        if self.side < 0 {
            self.deviation - 1
        } else {
            self.deviation
        }
    }

    /// What is wrong with the engine's answer or the reference's.
    fn difference(&self, random: &mut Random, reference: &Engine, luminances: &[u64]) -> Option<String> {
        let (meter, class, lamps) = (random.below(2), random.between(1, 2), [random.one_of(&[0, 400])]);
        let added = if meter == 0 { lamps[0] } else { 0 };
        let record = job(meter, class, &lamps, without(added, luminances));
        let lent = Lent::new(random, &record.bytes(), PAIRS);
        let mut answers = [Answer::of_engine(&lent), Answer::of_reference(reference, &lent)];
        let stated = answers.iter_mut().all(|answer| i64::from(answer.lent.slice()[self.pair]) == self.rounded());
        let difference = (!stated).then(|| format!("should be {}", self.rounded())).or_else(|| answers[0].difference(&answers[1]));
        difference.map(|difference| format!("{self:?}, {luminances:?}: {difference}"))
    }
}

/// Every whole number between dark ends; the pair that has it is looked for from another one on each time.
fn every_number(random: &mut Random, reference: &Engine, all: &mut Comparison, side: i64) {
    let dark = expected(&reference.gsdf, 102, 10_102);
    for n in 0..=2 * MOST {
        let deviation = n as i64 - MOST as i64;
        let mut places = (0..PAIRS - 2).map(|i| Place { pair: 1 + (i + n as usize) % (PAIRS - 2), deviation, side });
        let patches = |place: Place| Some((place, place.patches(&reference.gsdf, dark.clone(), place.factor(&dark).reduced())?));
        let (place, luminances) = places.find_map(patches).expect("some pair has this deviation");
        all.count(place.difference(random, reference, &luminances));
    }
}

/// Any whole number, pair and ends, the first from this index on.
fn any_number(random: &mut Random, gsdf: &Gsdf, lowest: u64, side: i64) -> Option<(Place, Vec<u64>)> {
    let place = Place { pair: 1 + random.place(PAIRS - 2), deviation: random.below(2 * MOST + 1) as i64 - MOST as i64, side };
    // The last of the indices that have this luminance.
    let jlo = gsdf.index(gsdf.luminance(random.between(lowest, LAST_INDEX - 10_000)));
    let luminances = expected(gsdf, jlo, random.between(jlo + 10_000, LAST_INDEX));
    let factor = place.factor(&luminances);
    Some((place, place.patches(gsdf, luminances, factor)?))
}

/// Few bright pairs have such a deviation, so they are drawn for themselves.
fn any_numbers(random: &mut Random, reference: &Engine, all: &mut Comparison, side: i64) {
    for lowest in [102, 60_000] {
        for _ in 0..DRAWN {
            let found = (0..TRIES).find_map(|_| any_number(random, &reference.gsdf, lowest, side));
            let (place, luminances) = found.expect("some pair has such a deviation");
            all.count(place.difference(random, reference, &luminances));
        }
    }
}

fn rounded(reference: &Engine, name: &'static str, side: i64) -> bool {
    let mut random = Random::new(16);
    let mut all = Comparison::new(name);
    every_number(&mut random, reference, &mut all, side);
    any_numbers(&mut random, reference, &mut all, side);
    all.ended(2 * MOST + 1 + 2 * DRAWN)
}

pub fn results(reference: &Engine) -> Vec<bool> {
    vec![
        rounded(reference, "check: whole deviations", 0),
        rounded(reference, "check: just below whole deviations", -1),
        rounded(reference, "check: just above whole deviations", 1),
    ]
}
