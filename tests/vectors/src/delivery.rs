//! The same input in other ways: in pieces, from a file that is not at its start, from nowhere; and how much of a file is read.
use std::fs::File;
use std::io::{Read, Seek, SeekFrom, Write};
use std::path::PathBuf;
use std::time::Duration;

use reference::engine::Engine;
use reference::report::{report, BUFFER};

use crate::jobs::{full, longest, small};
use crate::program::{Input, Program};
use crate::tests::Results;

/// Cuts the bytes into pieces of so many.
fn pieces(bytes: &[u8], length: usize, milliseconds: u64) -> Input {
    let pieces = bytes.chunks(length).map(<[u8]>::to_vec).collect();
    Input::Pipe { pieces, pause: Duration::from_millis(milliseconds), left_open: false }
}

/// Pipes that are written in pieces.
pub fn in_pieces(engine: &Engine, program: &Program, results: &mut Results) {
    let [small, full, longest] = [small(), full(engine), longest(engine)].map(|record| record.bytes());
    let more = [&longest[..], &[0; 20_000]].concat();
    let cases = [
        ("30 bytes, one by one, with pauses", &small, 1, 5),
        ("each section's items, one byte by one, with pauses", &full, 1, 3),
        ("6,250 bytes, one by one", &longest, 1, 0),
        ("6,250 bytes by threes", &longest, 3, 0),
        ("6,250 bytes in two pieces, with pauses", &longest, 3_125, 150),
        ("6,250 bytes in two pieces, with a long pause", &longest, 3_125, 1_000),
        ("6,250 bytes by 1,024, with pauses", &longest, 1_024, 30),
        ("6,250 bytes and one after a pause", &more[..BUFFER].to_vec(), BUFFER - 1, 100),
        ("26,250 bytes by 4,096, with pauses", &more, 4_096, 20),
        ("nothing, after a pause", &vec![], 1, 0),
    ];
    for (name, bytes, length, pause) in cases {
        results.count(&format!("pipe: {name}"), program.run(pieces(bytes, length, pause)).fault(&report(engine, bytes)));
    }
    for (name, length) in [("6,251 bytes", BUFFER), ("26,250 bytes", more.len())] {
        let input = Input::Pipe { pieces: vec![more[..length].to_vec()], pause: Duration::ZERO, left_open: true };
        results.count(&format!("pipe left open after {name}"), program.run(input).fault(&report(engine, &more)));
    }
}

/// A file of these bytes that has no name, at its start.
fn file_of(bytes: &[u8]) -> File {
    let path: PathBuf = std::env::temp_dir().join(format!("vectors-{}", std::process::id()));
    let mut file = std::fs::OpenOptions::new().read(true).write(true).create_new(true).open(&path).expect("a file can be made");
    std::fs::remove_file(&path).expect("it can be removed");
    file.write_all(bytes).expect("it can be written");
    file.seek(SeekFrom::Start(0)).expect("it can be read from its start");
    file
}

/// The program's answer to a file from a place on, and where it leaves the file: at its end, or no further than the program's buffer is long.
pub fn file_fault(engine: &Engine, program: &Program, bytes: &[u8], place: usize) -> Option<String> {
    let mut file = file_of(bytes);
    file.seek(SeekFrom::Start(place as u64)).expect("a file has places");
    let run = program.run(Input::File(file.try_clone().expect("a file can be handed on")));
    let end = file.stream_position().expect("a file has a place") as usize;
    let most = bytes.len().min(place + BUFFER);
    let read_on = (end != most).then(|| format!("from place {place} it read to {end}, and should to {most}"));
    let mut rest = vec![];
    file.read_to_end(&mut rest).expect("the rest can be read");
    assert_eq!(rest, bytes[end..]);
    run.fault(&report(engine, &bytes[place..])).or(read_on)
}

/// Files, and how far they are read.
pub fn from_files(engine: &Engine, program: &Program, results: &mut Results) {
    let longest = longest(engine).bytes();
    let more = [&longest[..], &[7; 93_750]].concat();
    let shifted = [&[9; 777][..], &longest].concat();
    let cases = [
        ("empty", vec![], 0),
        ("30 bytes", small().bytes(), 0),
        ("6,250 bytes", longest.clone(), 0),
        ("6,251 bytes", more[..BUFFER].to_vec(), 0),
        ("6,252 bytes", more[..BUFFER + 1].to_vec(), 0),
        ("100,000 bytes", more, 0),
        ("a record from place 777 on", shifted.clone(), 777),
        ("a file at its end", shifted.clone(), shifted.len()),
    ];
    for (name, bytes, place) in cases {
        results.count(&format!("file: {name}"), file_fault(engine, program, &bytes, place));
    }
}

/// No bytes from anywhere.
pub fn from_nowhere(engine: &Engine, program: &Program, results: &mut Results) {
    for (name, input) in [("/dev/null", Input::Null), ("closed standard input", Input::Closed)] {
        results.count(name, program.run(input).fault(&report(engine, &[])));
    }
}
