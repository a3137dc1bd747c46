//! Compares the engine with the reference by running both, and ends with 'N passed, M failed'.
//!
//!   compare                   everything, with the jobs of the gate
//!   compare COUNT [SEED]      so many drawn jobs alone; for the even table, which takes longer, a quarter as many

use compare::{jobs, random};
use reference::engine::Engine;

mod check_tests;
mod comparison;
mod even_tests;
mod gsdf_tests;
mod lent;
mod nearest_tests;
mod record_tests;
mod tally;
mod threads;

fn everything(reference: &Engine) -> Vec<bool> {
    let mut results = gsdf_tests::results(&reference.gsdf);
    results.extend(record_tests::results());
    results.extend(nearest_tests::results(reference));
    results.extend(even_tests::results(reference));
    results.extend(check_tests::results(reference));
    results.extend(threads::results(&reference.gsdf));
    results
}

fn drawn_jobs(reference: &Engine, count: u64, seed: u64) -> Vec<bool> {
    let mut results = nearest_tests::generated_results(reference, count, seed);
    results.extend(even_tests::generated_results(reference, count, seed));
    results.extend(check_tests::generated_results(reference, count, seed));
    results
}

fn main() {
    let reference = Engine::from_data_file();
    let numbers: Result<Vec<u64>, _> = std::env::args().skip(1).map(|word| word.parse()).collect();
    let results = match numbers.as_deref() {
        Ok([]) => everything(&reference),
        Ok([count]) => drawn_jobs(&reference, *count, jobs::SEED),
        Ok([count, seed]) => drawn_jobs(&reference, *count, *seed),
        _ => {
            eprintln!("usage: compare [COUNT [SEED]]");
            std::process::exit(2);
        }
    };
    let passed = results.iter().filter(|&&ok| ok).count();
    println!("{} passed, {} failed", passed, results.len() - passed);
    if passed < results.len() {
        std::process::exit(1);
    }
}
