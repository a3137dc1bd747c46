//! Reads a job record, from the file named or from standard input, and prints what the engine makes of it.
//!
//! The status is 0 where the job is sound, 1 where it is refused and 2 where it cannot be read.
mod yepidlaw;

use std::fs::File;
use std::io::{self, Read};
use std::process::ExitCode;

use yepidlaw::{ContrastCheck, EvenTable, NearestTable, Refusal, ENTRIES};

/// One more than the longest record has, so that bytes after it are seen.
const MOST_BYTES: u64 = 6_251;

fn read(path: Option<&String>) -> io::Result<Vec<u8>> {
    let input: Box<dyn Read> = match path {
        Some(path) => Box::new(File::open(path)?),
        None => Box::new(io::stdin()),
    };
    let mut record = vec![];
    input.take(MOST_BYTES).read_to_end(&mut record)?;
    Ok(record)
}

fn jnd(index: u32) -> String {
    format!("{}.{:02}", index / 100, index % 100)
}

fn print_nearest(table: &NearestTable) {
    println!("JND index       {} to {}, range {}", jnd(table.jlo), jnd(table.jhi), jnd(table.range));
    println!("room            {}", if table.room_is_high { "high" } else { "low" });
    println!("nearest table   largest error {}.{:04} cd/m²", table.largest_error / 10_000, table.largest_error % 10_000);
}

fn print_even(table: &Result<EvenTable, Refusal>) {
    match table {
        Err(refusal) => println!("even table      {refusal}"),
        Ok(table) => println!("even table      worst step {} parts per thousand", table.worst_step),
    }
}

fn print_check(check: &Result<Option<ContrastCheck>, Refusal>) {
    match check {
        Err(refusal) => println!("contrast check  {refusal}"),
        Ok(None) => println!("contrast check  not measured"),
        Ok(Some(check)) => {
            let deviations: Vec<String> = check.deviations.iter().map(i32::to_string).collect();
            println!("contrast check  {}", if check.passes { "pass" } else { "fail" });
            println!("deviations      {} parts per thousand", deviations.join(" "));
        }
    }
}

fn print_entries(nearest: &NearestTable, even: &Result<EvenTable, Refusal>) {
    println!("P-value  nearest  even");
    for p in (0..ENTRIES).step_by(51) {
        let even = even.as_ref().map_or("-".to_string(), |even| even.entries[p].to_string());
        println!("{p:7}  {:7}  {even:>4}", nearest.entries[p]);
    }
}

/// Whether the job is sound. Every operation gives refusals 2 to 10 alike.
fn summarize(record: &[u8]) -> bool {
    let nearest = match yepidlaw::nearest_table(record) {
        Ok(nearest) => nearest,
        Err(refusal) => {
            println!("{refusal}");
            return false;
        }
    };
    let even = yepidlaw::even_table(record);
    let check = yepidlaw::contrast_check(record);
    print_nearest(&nearest);
    print_even(&even);
    print_check(&check);
    print_entries(&nearest, &even);
    even.is_ok() && check.is_ok()
}

fn main() -> ExitCode {
    let path = std::env::args().nth(1);
    match read(path.as_ref()) {
        Ok(record) if summarize(&record) => ExitCode::SUCCESS,
        Ok(_) => ExitCode::from(1),
        Err(error) => {
            eprintln!("{}: {error}", path.as_deref().unwrap_or("standard input"));
            ExitCode::from(2)
        }
    }
}
