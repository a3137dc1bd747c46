//! The program by the engine's methods, written in Rust: the report of the record on standard input.
use std::io::{self, Read, Write};

fn main() -> io::Result<()> {
    let mut record = [0; 6_251];
    let mut n = 0;
    let mut input = io::stdin().lock();
    loop {
        let got = input.read(&mut record[n..])?;
        if got == 0 {
            break;
        }
        n += got;
    }
    io::stdout().write_all(&bench::in_rust::report::report(&record[..n]))
}
