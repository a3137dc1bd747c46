//! Every length of the table lent, those of the working words around the least, and every allowed error.
use reference::engine::Engine;

use super::{display, examples, wrong, wrong_or_other, Answer, Lent, ENTRIES, WORDS};
use crate::lent::Answers;
use crate::random::Random;

const LENGTHS_OF_WORDS: [usize; 18] =
    [0, 1, 32, 255, 256, 2_047, 2_048, 4_096, 8_190, 8_191, 8_192, 8_193, 8_194, 9_000, 65_536, 70_000, 131_072, 1_048_576];

fn lengths(reference: &Engine) -> bool {
    let mut random = Random::new(24);
    let mut all = Answers::new("even: every length");
    let of_entries = (0..=258).chain([300, 65_535, 65_536, 70_000, 131_072, 1_048_576]).map(|entries| [entries, WORDS]);
    let lengths: Vec<[usize; 2]> = of_entries.chain(LENGTHS_OF_WORDS.map(|words| [ENTRIES, words])).collect();
    for (_, bytes, number) in examples() {
        for &[entries, words] in &lengths {
            let number = if entries < ENTRIES || words < WORDS { 1 } else { number };
            let lent = Lent::new(&mut random, &bytes, entries, words);
            all.count(&lent.table, wrong_or_other(reference, &lent, number));
        }
    }
    all.ended(26 * (259 + 6 + 18))
}

/// Every allowed error; as it grows there is no table, and then one whose worst step is never larger than that before.
fn errors(reference: &Engine) -> bool {
    let mut random = Random::new(25);
    let mut all = Answers::new("even: every allowed error");
    let luminances: Vec<u64> = (0..256).map(|d: u64| 4_000 + 40 * d * d).collect();
    let mut before = u64::MAX;
    for tolerance in 0..=1_000 {
        let record = display(8, 0, &[400], tolerance, luminances.clone());
        let lent = Lent::new(&mut random, &record.bytes(), ENTRIES, WORDS);
        let expected = Answer::of_reference(reference, &lent);
        let worst = if expected.result.refusal == 11 { u64::MAX } else { expected.result.worst_step };
        let larger = (before < worst).then(|| "the worst step should not be larger".to_string());
        all.count(&lent.table, wrong(reference, &lent, &expected).or(larger));
        before = worst;
    }
    all.ended(1_001)
}

pub fn results(reference: &Engine) -> Vec<bool> {
    vec![lengths(reference), errors(reference)]
}
