//! The display function, engine against reference.
use compare::gsdf;
use reference::gsdf::{Gsdf, FIRST_INDEX, LAST_INDEX};

use crate::comparison::Comparison;

/// The engine's constant against the data file.
fn entries(reference: &Gsdf) -> bool {
    let mut all = Comparison::new("Table B-1");
    for (j, (got, &expected)) in (1..).zip(gsdf::table_b1().into_iter().zip(reference.entries())) {
        all.equal(j, got, expected);
    }
    all.ended(1023)
}

/// The luminance of every index.
fn luminances(reference: &Gsdf) -> bool {
    let mut all = Comparison::new("luminance of an index");
    for k in FIRST_INDEX..=LAST_INDEX {
        all.equal(k, gsdf::luminance_of(k as u32), reference.luminance(k));
    }
    all.ended(102_201)
}

/// The index of every luminance of the table: as the luminance rises by one unit, the reference's index follows it upward.
fn indices(reference: &Gsdf) -> bool {
    let mut all = Comparison::new("index of a luminance");
    let mut expected = FIRST_INDEX;
    for l in 500..=39_934_040 {
        while expected < LAST_INDEX && reference.luminance(expected + 1) <= l {
            expected += 1;
        }
        all.equal(l, gsdf::index_of(l as u32), expected);
    }
    all.ended(39_933_541)
}

/// The same by the reference's full scan, at each entry of the table, at its neighbours and between.
fn scanned_indices(reference: &Gsdf) -> [bool; 2] {
    let mut engine = Comparison::new("index of a luminance, scanned");
    let mut other = Comparison::new("index of a luminance, scanned and halved in the reference");
    for pair in reference.entries().windows(2) {
        for l in [pair[0], pair[0] + 1, (pair[0] + pair[1]) / 2, pair[1] - 1, pair[1]] {
            let expected = reference.scanned_index(l);
            engine.equal(l, gsdf::index_of(l as u32), expected);
            other.equal(l, reference.index(l) as u32, expected);
        }
    }
    [engine.ended(5 * 1022), other.ended(5 * 1022)]
}

/// The marked examples of J and G, engine and reference against the document.
fn marked_examples(reference: &Gsdf) -> [bool; 2] {
    let mut engine = Comparison::new("marked examples, engine");
    let mut other = Comparison::new("marked examples, reference");
    for (l, k) in [(500, 102), (501, 104), (546, 199), (547, 202), (12_400, 8_072)] {
        engine.equal(l, gsdf::index_of(l as u32), k);
        other.equal(l, reference.index(l) as u32, k);
    }
    engine.equal(150, gsdf::luminance_of(150), 523);
    other.equal(150, reference.luminance(150) as u32, 523);
    [engine.ended(6), other.ended(6)]
}

pub fn results(reference: &Gsdf) -> Vec<bool> {
    let mut results = vec![entries(reference), luminances(reference), indices(reference)];
    results.extend(scanned_indices(reference));
    results.extend(marked_examples(reference));
    results
}
