//! Inputs of the program with its whole output.
//!
//!   vectors write             writes the records, and the reports that the reference gives
//!   vectors check PROGRAM     holds the stored files to what `write` would write, and the program to the stored files; ends with 'N passed, M failed'
//!   vectors memory PROGRAM    runs the program on every stored record under Valgrind's memcheck; ends in the same way

use std::process::exit;

use reference::engine::Engine;

mod delivery;
mod faulty;
mod inputs;
mod jobs;
mod program;
mod refused;
mod sound;
mod store;
mod tests;
mod vector;

fn main() {
    let words: Vec<String> = std::env::args().skip(1).collect();
    let words: Vec<&str> = words.iter().map(String::as_str).collect();
    let engine = Engine::from_data_file();
    let results = match words[..] {
        ["write"] => return store::write(&engine),
        ["check", program] => tests::check(&engine, program),
        ["memory", program] => tests::memory(program),
        _ => {
            eprintln!("usage: vectors write | check PROGRAM | memory PROGRAM");
            exit(2);
        }
    };
    println!("{} passed, {} failed", results.passed, results.failed);
    if 0 < results.failed {
        exit(1);
    }
}
