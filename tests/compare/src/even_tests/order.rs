//! Several conditions at once: 11 comes after the numbers that a nearest table has, and 1 for either slice before them.
use reference::engine::Engine;
use reference::record::Record;

use super::{wrong_or_other, Lent};
use crate::lent::Answers;
use crate::nearest_tests::order::{records, written};
use crate::random::Random;

/// Entries and words lent; whether they are enough.
const LENT: [([usize; 2], bool); 7] = [
    ([0, 0], false),
    ([255, 8_192], false),
    ([256, 8_191], false),
    ([300, 0], false),
    ([0, 9_000], false),
    ([256, 8_192], true),
    ([300, 9_000], true),
];

/// The records of the nearest table's order with an error that leaves no table and with one that does, each in every way to write it.
pub fn lowest_number(reference: &Engine) -> bool {
    let mut random = Random::new(23);
    let mut all = Answers::new("even: order of refusals");
    for (record, of_panel) in records() {
        for (tolerance, of_error) in [(0, 11), (1_000, 0)] {
            let settings = [&record.settings[..4], &[tolerance]].concat();
            let record = Record { settings, ..record.clone() };
            for (bytes, number) in written(&record, if of_panel == 0 { of_error } else { of_panel }) {
                for ([entries, words], enough) in LENT {
                    let lent = Lent::new(&mut random, &bytes, entries, words);
                    all.count(&lent.table, wrong_or_other(reference, &lent, if enough { number } else { 1 }));
                }
            }
        }
    }
    all.ended(8 * 8 * 2 * 6 * 7)
}
