//! What the table and the working words held before: tables that look right, and the words of the job before.
use reference::engine::Engine;
use reference::nearest;

use super::{wrong, Answer, Lent, ENTRIES, WORDS};
use crate::jobs;
use crate::lent::Answers;

/// Jobs with a table, and without.
const MADE: usize = 120;
const NONE: usize = 60;

/// Zeros, the nearest table, the even table and one that is a level higher at the last P-value; of a job without a table the first two.
fn held(nearest: Vec<u64>, even: Option<&[u64]>) -> Vec<Vec<u64>> {
    let mut tables = vec![vec![0; ENTRIES], nearest];
    if let Some(even) = even {
        let mut higher = even.to_vec();
        higher[ENTRIES - 1] += 1;
        tables.extend([even.to_vec(), higher]);
    }
    tables
}

pub fn before(reference: &Engine) -> bool {
    let [mut drawn, mut random] = jobs::generators(30);
    let mut all = Answers::new("even: what table and words held before");
    let [mut made, mut none] = [0; 2];
    let mut words_left: Option<Vec<u32>> = None;
    while made < MADE || none < NONE {
        let job = jobs::draw_even(&mut drawn, &reference.gsdf);
        let Ok(sound) = reference.sound(&job.bytes) else { continue };
        let table = reference.even(&job.bytes, ENTRIES, WORDS).ok().map(|(_, table)| table);
        let seen = if table.is_some() { &mut made } else { &mut none };
        if *seen == if table.is_some() { MADE } else { NONE } {
            continue;
        }
        *seen += 1;
        let nearest = nearest::table(&sound.curve, &sound.targets).entries;
        for entries in held(nearest, table.as_ref().map(|table| &table.entries[..])) {
            let mut lent = Lent::new(&mut random, &job.bytes, ENTRIES, WORDS);
            lent.table.slice().iter_mut().zip(&entries).for_each(|(entry, &ddl)| *entry = ddl as u16);
            if let Some(words) = &words_left {
                lent.work.slice().copy_from_slice(words);
            }
            let expected = match &table {
                None => Answer::refused(11, &lent),
                Some(table) => Answer::made(table, &lent),
            };
            all.count(&lent.table, wrong(reference, &lent, &expected));
            words_left = Some(Answer::of_engine(&lent).lent.work.slice().to_vec());
        }
    }
    all.ended((4 * MADE + 2 * NONE) as u64)
}
