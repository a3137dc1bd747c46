//! Compares the library with the reference on records that coverage leads to.
//!
//!   fuzz run LIBRARY BLOCKS FINDING FIGURES EXECUTIONS SECONDS SEED
//!   fuzz again LIBRARY RECORD ENTRIES WORDS PLACES
//!
//! BLOCKS has the distance of each block of the library's code from `yepidlaw_nearest`. A run ends with so many executions, after so many seconds, or with the first
//! difference: its record is saved as FINDING, and the words to run it again are printed. The status is 1 then.
mod corpus;
mod features;
mod figures;
mod lent;
mod library;
mod mutation;
mod oracle;
mod signals;

use std::time::{Duration, Instant};

use compare::jobs;
use compare::random::Random;

use corpus::Corpus;
use figures::{Figures, State};
use lent::{Lengths, Lent};
use library::Library;
use oracle::{Oracle, Outcome, LONGEST_RECORD};
use signals::Coverage;

/// Drawn records before the first that is made from another.
const SEEDS: u64 = 500;
/// One execution out of so many has all blocks watched.
const WATCHED: u64 = 32;
/// What is lent holds other noise after so many executions.
const SAME_NOISE: u64 = 1 << 16;
/// The reference makes an even table that takes so many steps or fewer, and of longer ones as many as take so many steps on average.
const STEPS: u64 = 100_000;

struct Run {
    oracle: Oracle,
    coverage: Coverage,
    corpus: Corpus,
    figures: Figures,
    random: Random,
    seed: u64,
    begun: Instant,
}

impl Run {
    fn state(&self) -> State {
        State {
            time: self.begun.elapsed(),
            corpus: self.corpus.len(),
            features: self.corpus.features(),
            block_sets: self.corpus.block_sets(),
            reached: self.coverage.reached(),
            blocks: self.coverage.blocks(),
        }
    }

    /// A drawn record at first and now and then, else one made from those that are kept.
    fn record(&mut self) -> Vec<u8> {
        let (random, gsdf) = (&mut self.random, &self.oracle.reference.gsdf);
        let mut bytes = if SEEDS <= self.figures.executions && random.below(16) != 0 {
            let chosen = self.corpus.choose(random);
            let other = self.corpus.choose(random);
            mutation::mutated(random, gsdf, chosen, other)
        } else if random.below(2) == 0 {
            jobs::draw(random, gsdf).bytes
        } else {
            jobs::draw_even(random, gsdf).bytes
        };
        bytes.truncate(LONGEST_RECORD);
        bytes
    }

    fn execute(&mut self, bytes: Vec<u8>, lengths: Lengths) -> Result<(), String> {
        let watched = self.figures.executions % WATCHED == 0;
        if watched {
            self.coverage.arm_all();
        }
        let random = &mut self.random;
        let outcome = self.oracle.run(&bytes, lengths, |steps| random.below(steps) < STEPS)?;
        self.figures.add(&outcome);
        if self.is_new(&bytes, &outcome, watched) {
            self.corpus.keep(&mut self.random, bytes, outcome.made.is_some(), outcome.work());
        }
        Ok(())
    }

    fn is_new(&mut self, bytes: &[u8], outcome: &Outcome, watched: bool) -> bool {
        let new_features = self.corpus.has_new_features(features::features(bytes, outcome));
        let new_blocks = self.coverage.has_new();
        let new_set = watched && self.corpus.has_new_block_set(self.coverage.met());
        new_features || new_blocks || new_set
    }

    /// Until so many executions, so long, an interrupt, or a difference, which is given.
    fn go(&mut self, executions: u64, time: Duration, figures_path: &str) -> Option<String> {
        let mut reported = 0;
        while self.figures.executions < executions && self.begun.elapsed() < time && !signals::end_is_asked() {
            if self.figures.executions % SAME_NOISE == 0 {
                self.oracle.lent = Lent::new(&mut self.random);
            }
            let bytes = self.record();
            let lengths = Lengths::draw(&mut self.random);
            signals::begin_execution(lengths);
            if let Err(difference) = self.execute(bytes, lengths) {
                return Some(difference);
            }
            let minutes = self.begun.elapsed().as_secs() / 60;
            if reported < minutes {
                reported = minutes;
                self.report(figures_path);
            }
        }
        None
    }

    fn report(&self, figures_path: &str) {
        let state = self.state();
        println!("{}", self.figures.line(&state));
        std::fs::write(figures_path, self.figures.markdown(&state, self.seed)).expect("the figures can be written");
    }
}

fn number(word: &str) -> u64 {
    word.parse().unwrap_or_else(|_| panic!("{word} is no number"))
}

fn run(library: &str, blocks: &str, finding: &str, figures_path: &str, numbers: [u64; 3]) -> bool {
    let [executions, seconds, seed] = numbers;
    let mut random = Random::new(seed);
    let library = Library::open(library);
    let distances = std::fs::read_to_string(blocks).expect("the list of blocks can be read");
    let coverage = Coverage::new(&library.addresses(&distances));
    let oracle = Oracle::new(library, Lent::new(&mut random));
    signals::handle(finding);
    let begun = Instant::now();
    let mut run = Run { oracle, coverage, corpus: Corpus::default(), figures: Figures::default(), random, seed, begun };
    let found = run.go(executions, Duration::from_secs(seconds), figures_path);
    run.report(figures_path);
    if let Some(difference) = &found {
        println!("FOUND: {difference}");
        signals::save_record();
    }
    found.is_none()
}

fn again(library: &str, record: &str, numbers: [u64; 3]) -> bool {
    let [entries, words, places] = numbers.map(|length| length as usize);
    let mut oracle = Oracle::new(Library::open(library), Lent::new(&mut Random::new(0)));
    let bytes = std::fs::read(record).expect("the record can be read");
    let lengths = Lengths { entries, words, places };
    signals::handle(record);
    signals::begin_execution(lengths);
    match oracle.run(&bytes, lengths, |_| true) {
        Ok(outcome) => println!("no difference; refusals {:?}, verdict {}", outcome.refusals, outcome.verdict),
        Err(difference) => {
            println!("FOUND: {difference}");
            return false;
        }
    }
    true
}

fn main() {
    let words: Vec<String> = std::env::args().skip(1).collect();
    let words: Vec<&str> = words.iter().map(String::as_str).collect();
    let good = match words[..] {
        ["run", library, blocks, finding, figures, executions, seconds, seed] => {
            run(library, blocks, finding, figures, [executions, seconds, seed].map(number))
        }
        ["again", library, record, entries, words, places] => again(library, record, [entries, words, places].map(number)),
        _ => {
            eprintln!(
                "usage: fuzz run LIBRARY BLOCKS FINDING FIGURES EXECUTIONS SECONDS SEED | fuzz again LIBRARY RECORD ENTRIES WORDS PLACES"
            );
            std::process::exit(2);
        }
    };
    std::process::exit(if good { 0 } else { 1 });
}
