//! Every value in its range and beyond: the numbers 5, 6 and 7.
use reference::record::Record;

use super::{last_ddl, sound, Records};

const SETTING_RANGES: [(u64, u64); 5] = [(8, 10), (0, 1), (1, 2), (0, 1_000), (0, 1_000)];
const MAX_LUX: u64 = 2_000;

/// Luminances at which some byte, or a sign, would turn over.
const EDGES: [u64; 14] = [
    0,
    1,
    255,
    256,
    65_535,
    65_536,
    16_777_215,
    16_777_216,
    2_147_483_647,
    2_147_483_648,
    4_278_190_080,
    4_294_901_760,
    4_294_967_294,
    4_294_967_295,
];

fn number_unless(sound: bool, number: u32) -> u32 {
    if sound {
        0
    } else {
        number
    }
}

/// Every 16-bit value of each setting; the sweep goes to the M of the depth where there is one.
fn settings() -> bool {
    let mut all = Records::new("record: settings");
    for (place, (least, most)) in SETTING_RANGES.into_iter().enumerate() {
        for value in 0..=65_535 {
            let in_range = least <= value && value <= most;
            let mut record = sound(if place == 0 && in_range { value } else { 8 }, 1, 3, 0);
            record.settings[place] = value;
            all.judged(&record, number_unless(in_range, 5));
        }
    }
    every_setting_at_an_end(&mut all);
    all.ended(5 * 65_536 + 48)
}

/// The settings at their ends, each together with each.
fn every_setting_at_an_end(all: &mut Records) {
    for depth in [8, 9, 10] {
        for choice in 0..16 {
            let mut record = sound(depth, 2, 5, 18);
            for (place, (least, most)) in SETTING_RANGES.into_iter().enumerate().skip(1) {
                record.settings[place] = if choice >> (place - 1) & 1 == 0 { least } else { most };
            }
            all.judged(&record, 0);
        }
    }
}

/// Every 16-bit value at each place of 8 lamps, then the ends at each place of fewer, then lamps all alike.
fn lamps() -> bool {
    let mut all = Records::new("record: lamps");
    for place in 0..8 {
        (0..=65_535).for_each(|lux| lamp(&mut all, 8, place, lux));
    }
    for lamps in 1..8 {
        for place in 0..lamps {
            for lux in [0, 1, 255, 256, 1_999, 2_000, 2_001, 2_048, 2_256, 2_304, 32_768, 53_248, 65_280, 65_535] {
                lamp(&mut all, lamps, place, lux);
            }
        }
    }
    for lamps in 0..=8 {
        for lux in [0, 1_999, 2_000, 2_001, 65_535] {
            let mut record = sound(9, lamps, 3, 0);
            record.lamps.fill(lux);
            all.judged(&record, number_unless(lux <= MAX_LUX || lamps == 0, 5));
        }
    }
    all.ended(8 * 65_536 + 28 * 14 + 9 * 5)
}

fn lamp(all: &mut Records, lamps: u64, place: u64, lux: u64) {
    let mut record = sound(8, lamps, 2, 0);
    record.lamps[place as usize] = lux;
    all.judged(&record, number_unless(lux <= MAX_LUX, 5));
}

fn with_ddls(depth: u64, ddls: Vec<u64>) -> Record {
    let luminances = (1_000..).take(ddls.len()).collect();
    Record { ddls, luminances, ..sound(depth, 1, 2, 0) }
}

/// Every 16-bit DDL as the first, the middle one and the last of a short sweep.
fn every_ddl(all: &mut Records, depth: u64) {
    let last = last_ddl(depth);
    for ddl in 0..=65_535 {
        all.judged(&with_ddls(depth, vec![ddl, last]), number_unless(ddl == 0, 6));
        all.judged(&with_ddls(depth, vec![0, ddl, last]), number_unless(0 < ddl && ddl < last, 6));
        all.judged(&with_ddls(depth, vec![0, ddl]), number_unless(ddl == last, 6));
    }
}

/// At every place of the sweep that has each DDL once: the one before again, the two the other way round, the next one too soon.
fn every_pair(all: &mut Records, depth: u64) {
    let ddls: Vec<u64> = (0..=last_ddl(depth)).collect();
    all.judged(&with_ddls(depth, ddls.clone()), 0);
    for place in 1..ddls.len() {
        let mut equal = ddls.clone();
        equal[place] = ddls[place - 1];
        all.judged(&with_ddls(depth, equal), 6);
        let mut falling = ddls.clone();
        falling.swap(place - 1, place);
        all.judged(&with_ddls(depth, falling), 6);
        let mut early = ddls.clone();
        early[place - 1] = ddls[place];
        all.judged(&with_ddls(depth, early), 6);
    }
}

/// Strictly rising sweeps of 37 readings that start or end elsewhere.
fn other_ends(all: &mut Records, depth: u64) {
    let last = last_ddl(depth);
    for beyond in 1..=5 {
        let mut record = sound(depth, 1, 37, 0);
        record.ddls[0] = beyond;
        all.judged(&record, 6);
        for end in [last - beyond, last + beyond, 65_536 - beyond, last + 256 * beyond] {
            record = sound(depth, 1, 37, 0);
            record.ddls[36] = end;
            all.judged(&record, 6);
        }
    }
}

/// Sweeps that are right for one depth, under each depth.
fn other_depths(all: &mut Records) {
    for swept in [8, 9, 10] {
        for depth in [8, 9, 10] {
            for readings in [2, 37, 256, last_ddl(swept) + 1] {
                let mut record = sound(swept, 8, readings, 18);
                record.settings[0] = depth;
                all.judged(&record, number_unless(depth == swept, 6));
            }
        }
    }
    (8..=10).for_each(|depth| all.judged(&with_ddls(depth, (0..1024).map(|i| 64 * i).collect()), 6));
}

fn ddls() -> bool {
    let mut all = Records::new("record: sweep DDLs");
    for depth in [8, 9, 10] {
        every_ddl(&mut all, depth);
        every_pair(&mut all, depth);
        other_ends(&mut all, depth);
    }
    other_depths(&mut all);
    all.ended(9 * 65_536 + 3 + 3 * (255 + 511 + 1_023) + 3 * 25 + 36 + 3)
}

fn with_luminances(luminances: Vec<u64>) -> Record {
    Record { luminances: luminances.clone(), ..sound(10, 1, luminances.len() as u64, 0) }
}

/// Two and three readings at the edges.
fn edges(all: &mut Records) {
    for first in EDGES {
        for second in EDGES {
            all.judged(&with_luminances(vec![first, second]), number_unless(first <= second, 7));
            for third in EDGES {
                all.judged(&with_luminances(vec![first, second, third]), number_unless(first <= second && second <= third, 7));
            }
        }
    }
}

/// Readings all equal, then one unit less and more at each place, alone and from there on.
fn one_unit(all: &mut Records, readings: usize, luminance: u64) {
    let equal = vec![luminance; readings];
    all.judged(&with_luminances(equal.clone()), 0);
    for place in 0..readings {
        let mut one = equal.clone();
        one[place] = luminance - 1;
        all.judged(&with_luminances(one.clone()), number_unless(place == 0, 7));
        one[place] = luminance + 1;
        all.judged(&with_luminances(one), number_unless(place == readings - 1, 7));
        let mut rest = equal.clone();
        rest[place..].fill(luminance - 1);
        all.judged(&with_luminances(rest.clone()), number_unless(place == 0, 7));
        rest[place..].fill(luminance + 1);
        all.judged(&with_luminances(rest), 0);
    }
}

fn luminances() -> bool {
    let mut all = Records::new("record: sweep luminances");
    edges(&mut all);
    for readings in [2, 3, 37, 1024] {
        for luminance in [0, 4_294_967_295] {
            all.judged(&with_luminances(vec![luminance; readings]), 0);
        }
        for luminance in [1, 256, 65_536, 16_777_216, 2_147_483_648, 4_294_967_294] {
            one_unit(&mut all, readings, luminance);
        }
    }
    all.ended(196 + 2_744 + 4 * 2 + 6 * (4 + 4 * (2 + 3 + 37 + 1_024)))
}

/// Check readings have no range, and may fall.
fn check() -> bool {
    let mut all = Records::new("record: check readings");
    for luminance in EDGES {
        let mut record = sound(10, 1, 2, 18);
        record.check.fill(luminance);
        all.judged(&record, 0);
        for place in 0..18 {
            record = sound(10, 1, 2, 18);
            record.check[place] = luminance;
            all.judged(&record, 0);
        }
    }
    all.ended(14 * 19)
}

pub fn results() -> Vec<bool> {
    vec![settings(), lamps(), ddls(), luminances(), check()]
}
