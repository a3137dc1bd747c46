//! Several conditions at once: the lowest number is given, but for 2 and 3, which are met in the order of reading.
use reference::engine::Engine;
use reference::record::Record;

use super::{Answer, Lent};
use crate::jobs::damage::{count_places, set_count};
use crate::lent::Answers;
use crate::random::Random;

/// The first and the last reading, and the lowest of 8, 9 and 10 that they meet; 0 for none.
const ENDS: [(u64, u64, u32); 8] = [
    (10_000, 2_560_000, 0),
    (300, 2_560_000, 8),
    (300, 50_000_000, 8),
    (300, 450, 8),
    (300, 20_000, 8),
    (10_000, 50_000_000, 9),
    (49_999_000, 50_000_000, 9),
    (10_000, 20_000, 10),
];

/// A record with these ends and faults, and the lowest number that it meets; 0 for none.
fn record((first, last, number): (u64, u64, u32), faults: [bool; 3]) -> (Record, u32) {
    let [setting, ddl, luminance] = faults;
    let mut lowest = number;
    let mut record = Record {
        settings: vec![8, 0, 1, 60, 0],
        lamps: vec![],
        ddls: vec![0, 7, 8, 100, 255],
        luminances: vec![first, first + 2, first + 2, last - 1, last],
        check: vec![0; 18],
    };
    if luminance {
        record.luminances[2] -= 1;
        lowest = 7;
    }
    if ddl {
        record.ddls[2] = 7;
        lowest = 6;
    }
    if setting {
        record.settings[2] = 3;
        lowest = 5;
    }
    (record, lowest)
}

/// Every choice of ends and faults.
pub fn records() -> Vec<(Record, u32)> {
    let faults = (0..8).map(|choice| [choice & 1 != 0, choice & 2 != 0, choice & 4 != 0]);
    ENDS.into_iter().flat_map(|ends| faults.clone().map(move |faults| record(ends, faults))).collect()
}

/// The record as it is, with a byte more, cut at its end, with a count not permitted, that and cut at its end, and cut inside that count.
pub fn written(record: &Record, lowest: u32) -> [(Vec<u8>, u32); 6] {
    let bytes = record.bytes();
    let sweep = count_places(record)[2];
    let mut miscounted = bytes.clone();
    set_count(&mut miscounted, sweep, 1_025);
    let cut = |bytes: &[u8]| bytes[..bytes.len() - 1].to_vec();
    [
        (bytes.clone(), lowest),
        ([&bytes[..], &[0]].concat(), 4),
        (cut(&bytes), 2),
        (miscounted.clone(), 3),
        (cut(&miscounted), 3),
        (miscounted[..sweep + 1].to_vec(), 2),
    ]
}

pub fn lowest_number(reference: &Engine) -> bool {
    let mut random = Random::new(2);
    let mut all = Answers::new("nearest: order of refusals");
    for (record, lowest) in records() {
        for (bytes, number) in written(&record, lowest) {
            for (entries, number) in [(0, 1), (255, 1), (256, number), (1_000, number)] {
                let lent = Lent::new(&mut random, &bytes, entries);
                let expected = Answer::of_reference(reference, &lent);
                let difference = Answer::of_engine(&lent).difference(&expected);
                let stated = (expected.result.refusal != number).then(|| format!("should be {number}"));
                all.count(&lent, difference.or(stated));
            }
        }
    }
    all.ended(8 * 8 * 6 * 4)
}
