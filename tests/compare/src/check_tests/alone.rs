//! Checks that fail by one pair that is far off; every other pair passes.
use reference::contrast::{Contrast, PAIRS};
use reference::engine::Engine;

use super::{job, judged, without, FAIL};
use crate::comparison::Comparison;
use crate::jobs::limits::{Off, OnePair, ANY_ENDS};
use crate::random::Random;

/// How many checks there are for each pair, kind and class.
const EACH: usize = 4;
const KINDS: [Off; 5] = [Off::Equal, Off::Fall, Off::High(301), Off::High(501), Off::High(1_001)];

/// Whether the pair is as far off as it should be, and the only one that fails.
fn fails_alone(contrast: &Contrast, class: u64, one: OnePair) -> bool {
    let pair = &contrast.pairs[one.pair];
    let is_off = match one.off {
        Off::Equal => pair.x == 0,
        Off::Fall => pair.x < 0,
        Off::High(deviation) => i128::from(deviation) <= pair.deviation(),
        _ => false,
    };
    is_off && (0..PAIRS).all(|i| contrast.pairs[i].passes(class) == (i != one.pair))
}

/// Each pair in turn, in rooms without light, with light that is added and with light in the readings.
pub fn far_off(reference: &Engine) -> bool {
    let mut random = Random::new(15);
    let mut all = Comparison::new("check: one pair far off");
    for (pair, off) in (0..PAIRS).flat_map(|pair| KINDS.map(|off| (pair, off))) {
        let one = OnePair { pair, off };
        for (class, i) in [1, 2].into_iter().flat_map(|class| (0..EACH).map(move |i| (class, i))) {
            let (meter, lamps, added) = [(0, &[][..], 0), (0, &[400][..], 400), (1, &[][..], 0), (1, &[400][..], 0)][i % 4];
            let luminances = one.draw_with_ends(&mut random, &reference.gsdf, class, added, ANY_ENDS);
            let contrast = Contrast::of(&reference.gsdf, luminances.clone(), class);
            let alone = contrast.map_or(false, |contrast| fails_alone(&contrast, class, one));
            let record = job(meter, class, lamps, without(added, &luminances));
            let found = (!alone).then(|| "not the only one that fails".to_string());
            let found = found.or_else(|| judged(&mut random, reference, &record, FAIL));
            all.count(found.map(|found| format!("{one:?}, class {class}, meter {meter}, {luminances:?}: {found}")));
        }
    }
    all.ended((PAIRS * KINDS.len() * 2 * EACH) as u64)
}
