//! Many threads at once: each has the answers that one thread has alone.
use std::sync::atomic::{AtomicU64, Ordering};
use std::sync::Barrier;

use compare::yepidlaw::{self, Check, Even, Nearest};
use reference::gsdf::Gsdf;

use crate::comparison::Comparison;
use crate::jobs;
use crate::lent::Memory;
use crate::random::Random;
use crate::tally::Tally;

const JOBS: u64 = 500;
const THREADS: [usize; 3] = [2, 3, 8];
/// What is lent: more than is needed, and for one record out of so many too little.
const ENOUGH: [usize; 3] = [300, 8_300, 20];
const TOO_LITTLE: [usize; 3] = [255, 8_191, 16];
const SHORT: usize = 20;
/// How often the nearest table and the check of a record are made: they take microseconds, so that few would be under way at once.
const REPEATS: usize = 40;
/// How many of the words are free after a table was made.
const FREE: usize = 8_192;

/// How many calls are under way, and how often a call began while another was.
#[derive(Default)]
struct Calls {
    under_way: AtomicU64,
    at_once: AtomicU64,
}

impl Calls {
    fn call<R>(&self, operation: impl FnOnce() -> R) -> R {
        let others = self.under_way.fetch_add(1, Ordering::SeqCst);
        self.at_once.fetch_add(others.min(1), Ordering::SeqCst);
        let result = operation();
        self.under_way.fetch_sub(1, Ordering::SeqCst);
        result
    }
}

/// What is lent with one record; what it holds before depends on the record's number alone.
struct Lent {
    tables: [Memory<u16>; 2],
    words: Memory<u32>,
    deviations: Memory<i32>,
}

/// The result of each operation with what was lent to it and what is around that; words that are free are 0.
type NearestAnswer = (Nearest, Vec<u16>);
type EvenAnswer = (Even, Vec<u16>, Vec<u32>);
type CheckAnswer = (Check, Vec<i32>);

impl Lent {
    fn new(number: usize) -> Lent {
        let random = &mut Random::new(number as u64);
        let [entries, words, places] = if number % SHORT == 0 { TOO_LITTLE } else { ENOUGH };
        let tables = [0; 2].map(|_| Memory::new(random, entries));
        Lent { tables, words: Memory::new(random, words), deviations: Memory::new(random, places) }
    }

    fn nearest(&mut self, record: &[u8], calls: &Calls) -> NearestAnswer {
        let nearest = calls.call(|| yepidlaw::nearest(record, self.tables[0].slice()));
        (nearest, self.tables[0].all.clone())
    }

    fn even(&mut self, record: &[u8], calls: &Calls) -> EvenAnswer {
        let even = calls.call(|| yepidlaw::even(record, self.tables[1].slice(), self.words.slice()));
        if even.refusal == 0 {
            self.words.slice()[..FREE].fill(0);
        }
        (even, self.tables[1].all.clone(), self.words.all.clone())
    }

    fn check(&mut self, record: &[u8], calls: &Calls) -> CheckAnswer {
        let check = calls.call(|| yepidlaw::check(record, self.deviations.slice()));
        (check, self.deviations.all.clone())
    }
}

struct Answers {
    nearest: NearestAnswer,
    even: EvenAnswer,
    check: CheckAnswer,
}

impl Answers {
    fn of(number: usize, record: &[u8]) -> Answers {
        let (mut lent, calls) = (Lent::new(number), Calls::default());
        Answers { nearest: lent.nearest(record, &calls), even: lent.even(record, &calls), check: lent.check(record, &calls) }
    }

    fn refusals(&self) -> [u32; 3] {
        [self.nearest.0.refusal, self.even.0.refusal, self.check.0.refusal]
    }

    /// Whether these come again, those of the short operations many times.
    fn come_again(&self, number: usize, record: &[u8], calls: &Calls) -> bool {
        let mut lent = Lent::new(number);
        let mut short = || lent.nearest(record, calls) == self.nearest && lent.check(record, calls) == self.check;
        (0..REPEATS).all(|_| short()) && lent.even(record, calls) == self.even
    }
}

/// Records with the answers of one thread alone.
struct Alone {
    records: Vec<Vec<u8>>,
    answers: Vec<Answers>,
}

impl Alone {
    fn new(gsdf: &Gsdf) -> Alone {
        let random = &mut Random::new(jobs::SEED);
        let draw = |n: u64| if n % 2 == 0 { jobs::draw(random, gsdf) } else { jobs::draw_even(random, gsdf) };
        let records: Vec<Vec<u8>> = (0..JOBS).map(draw).map(|job| job.bytes).collect();
        let answers = records.iter().enumerate().map(|(number, record)| Answers::of(number, record)).collect();
        Alone { records, answers }
    }

    /// A record whose answers are others now; each thread begins at another one, or all wait for each other before each record and share its bytes.
    fn difference(&self, thread: usize, apart: usize, together: &Barrier, calls: &Calls) -> Option<String> {
        let mut found = None;
        for i in 0..self.records.len() {
            let number = (i + thread * apart) % self.records.len();
            if apart == 0 {
                together.wait();
            }
            if !self.answers[number].come_again(number, &self.records[number], calls) {
                found = Some(format!("thread {thread}, record {number}"));
            }
        }
        found
    }

    /// So many threads at once, each over all records.
    fn compare(&self, all: &mut Comparison, threads: usize, apart: usize, calls: &Calls) {
        let together = Barrier::new(threads);
        let together = &together;
        let differences: Vec<Option<String>> = std::thread::scope(|scope| {
            let start = |thread| scope.spawn(move || self.difference(thread, apart, together, calls));
            let started: Vec<_> = (0..threads).map(start).collect();
            started.into_iter().map(|thread| thread.join().expect("no thread panics")).collect()
        });
        differences.into_iter().for_each(|difference| all.count(difference));
    }
}

/// Whether calls were under way at once.
fn at_once(name: &str, calls: &Calls) -> bool {
    let at_once = calls.at_once.load(Ordering::SeqCst);
    println!("{name}: {at_once} calls began while another was under way");
    0 < at_once
}

pub fn results(gsdf: &Gsdf) -> Vec<bool> {
    let alone = Alone::new(gsdf);
    let mut numbers = Tally::new("threads: answers", 0..=13);
    alone.answers.iter().flat_map(Answers::refusals).for_each(|number| numbers.add(number as usize));
    let mut results = vec![numbers.ended(1)];
    let threads: usize = THREADS.iter().sum();
    for (name, apart) in [("threads: records of their own", 37), ("threads: the same record", 0)] {
        let calls = Calls::default();
        let mut all = Comparison::new(name);
        THREADS.iter().for_each(|&threads| alone.compare(&mut all, threads, apart, &calls));
        results.push(all.ended(threads as u64));
        results.push(at_once(name, &calls));
    }
    results
}
