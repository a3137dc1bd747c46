//! Checks that pass by one pair at the limit of their class, and the same a unit further; and checks that fail or pass by the least there is.
use reference::contrast::{limit, Contrast, PAIRS};
use reference::engine::Engine;

use super::{job, judged, without, Answer, Lent, FAIL, PASS};
use crate::comparison::Comparison;
use crate::jobs::limits::{Off, OnePair, ANY_ENDS};
use crate::random::Random;

/// How many checks there are for each pair, side, class and meter.
const EACH: usize = 10;

/// What should hold of a check with a pair at the limit, and of the same a unit further.
fn stated(one: OnePair, high: bool, class: u64, at_limit: &Contrast, further: &Contrast) -> Option<String> {
    let pair = &at_limit.pairs[one.pair];
    let exact = matches!(one.off, Off::Excess { .. });
    let exceeded = &further.pairs[one.pair];
    let holds = at_limit.passes
        && high == (pair.y < pair.x)
        && (!exact || pair.is_at_limit(class))
        && at_limit.expected == further.expected
        && !exceeded.passes(class)
        && !further.passes;
    (!holds).then(|| format!("{one:?} in class {class} is not as it should be"))
}

fn difference(random: &mut Random, reference: &Engine, bytes: &[u8]) -> Option<String> {
    let places = random.one_of(&[17, 18, 40]);
    let lent = Lent::new(random, bytes, places);
    Answer::of_engine(&lent).difference(&Answer::of_reference(reference, &lent))
}

/// Each counts as one, with its neighbour a unit further and both in either class.
fn at_limits(reference: &Engine, name: &'static str, off: fn(bool) -> Off) -> bool {
    let mut random = Random::new(7);
    let mut all = Comparison::new(name);
    for (pair, high) in (0..PAIRS).flat_map(|pair| [(pair, true), (pair, false)]) {
        let one = OnePair { pair, off: off(high) };
        for (class, meter) in [(1, 0), (1, 1), (2, 0), (2, 1)] {
            for _ in 0..EACH {
                let lamps = [random.one_of(&[0, 400, 2_000])];
                let added = if meter == 0 { lamps[0] } else { 0 };
                let luminances = one.draw_with_ends(&mut random, &reference.gsdf, class, added, ANY_ENDS);
                let mut further = luminances.clone();
                one.exceed(high, &mut further);
                let of = |luminances: &[u64]| Contrast::of(&reference.gsdf, luminances.to_vec(), class);
                let mut found = match (of(&luminances), of(&further)) {
                    (Ok(at_limit), Ok(further)) => stated(one, high, class, &at_limit, &further),
                    _ => Some("should be measured".to_string()),
                };
                for (luminances, judged) in [(&luminances, 1), (&luminances, 2), (&further, 1), (&further, 2)] {
                    let record = job(meter, judged, &lamps, without(added, luminances));
                    found = found.or_else(|| difference(&mut random, reference, &record.bytes()));
                }
                all.count(found.map(|found| format!("{one:?}, class {class}, meter {meter}, {luminances:?}: {found}")));
            }
        }
    }
    all.ended((PAIRS * 2 * 4 * EACH) as u64)
}

/// At pair 8, |X − Y| × n = Y + 1; the class, and whether the deviation is high.
const LEAST_EXCESS: [(u64, bool, [u64; 18]); 4] = [
    (
        1,
        true,
        [
            48_568, 59_280, 71_554, 85_557, 101_441, 119_407, 139_677, 162_450, 187_994, 219_625, 251_396, 286_725, 325_980, 369_480,
            417_656, 471_000, 529_921, 595_039,
        ],
    ),
    (
        1,
        false,
        [
            369_297, 474_357, 603_856, 763_007, 957_925, 1_196_284, 1_487_015, 1_841_216, 2_272_344, 2_731_627, 3_343_270, 4_083_157,
            4_977_993, 6_060_371, 7_368_342, 8_949_964, 10_861_010, 13_172_020,
        ],
    ),
    (
        2,
        true,
        [
            105_130, 114_439, 124_340, 134_860, 146_028, 157_878, 170_457, 183_768, 197_862, 216_485, 233_153, 250_833, 269_602, 289_468,
            310_512, 332_797, 356_385, 381_381,
        ],
    ),
    (
        2,
        false,
        [
            83_724, 106_146, 132_782, 164_208, 201_146, 244_369, 294_746, 353_355, 421_334, 482_329, 570_173, 671_525, 788_249, 922_628,
            1_077_107, 1_254_438, 1_458_018, 1_691_490,
        ],
    ),
];

/// Whether |X − Y| × n is Y and this excess at a pair, to this side, and every other pair passes.
fn has_excess(contrast: &Contrast, class: u64, place: usize, high: bool, excess: i64) -> bool {
    let pair = &contrast.pairs[place];
    let off = if high { pair.x - pair.y } else { pair.y - pair.x };
    let others_pass = (0..PAIRS).all(|i| i == place || contrast.pairs[i].passes(class));
    off * limit(class) == pair.y + i128::from(excess) && others_pass
}

fn least_excess(reference: &Engine) -> bool {
    let mut random = Random::new(13);
    let mut all = Comparison::new("check: least excess");
    for (class, high, luminances) in LEAST_EXCESS {
        let contrast = Contrast::of(&reference.gsdf, luminances.to_vec(), class);
        let holds = contrast.map_or(false, |contrast| has_excess(&contrast, class, 8, high, 1));
        all.count((!holds).then(|| format!("class {class}, high {high}: the excess is not 1")));
        all.count(judged(&mut random, reference, &job(1, class, &[], luminances.to_vec()), FAIL));
    }
    all.ended(2 * 4)
}

/// Ends that leave a pair with an excess of 1 more often: dark ones for the first and the last pair.
fn ends(pair: usize) -> (u64, u64) {
    match pair {
        0 => (2_000, ANY_ENDS.1),
        16 => (6_000, 20_000),
        _ => ANY_ENDS,
    }
}

/// Checks that fail by Y + 1, and such that pass by Y − 1.
fn least_excesses(reference: &Engine) -> bool {
    let mut random = Random::new(14);
    let mut all = Comparison::new("check: least excess of every pair");
    for (pair, high) in (0..PAIRS).flat_map(|pair| [(pair, true), (pair, false)]) {
        for (class, excess, verdict) in [(1, 1, FAIL), (1, -1, PASS), (2, 1, FAIL), (2, -1, PASS)] {
            let one = OnePair { pair, off: Off::Excess { high, excess } };
            for (meter, added) in [(0, 400), (1, 0)] {
                let luminances = one.draw_with_ends(&mut random, &reference.gsdf, class, added, ends(pair));
                let contrast = Contrast::of(&reference.gsdf, luminances.clone(), class);
                let holds = contrast.map_or(false, |contrast| has_excess(&contrast, class, pair, high, excess));
                let record = job(meter, class, &[400], without(added, &luminances));
                let found = (!holds).then(|| "not the excess".to_string());
                let found = found.or_else(|| judged(&mut random, reference, &record, verdict));
                all.count(found.map(|found| format!("{one:?}, class {class}, meter {meter}, {luminances:?}: {found}")));
            }
        }
    }
    all.ended((PAIRS * 2 * 4 * 2) as u64)
}

pub fn results(reference: &Engine) -> Vec<bool> {
    vec![
        at_limits(reference, "check: pairs at the limit", |high| Off::Limit { high }),
        at_limits(reference, "check: pairs exactly at the limit", |high| Off::Excess { high, excess: 0 }),
        least_excess(reference),
        least_excesses(reference),
    ]
}
