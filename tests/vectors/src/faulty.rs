//! Programs that are wrong in one way each, which has to be noticed.
use reference::engine::Engine;
use reference::report::report;

use crate::delivery::file_fault;
use crate::jobs::longest;
use crate::program::{Input, Program};
use crate::tests::Results;

/// What is wrong, and a program for no input.
const OUTPUTS: [(&str, &str); 7] = [
    ("another number", "echo refused 3"),
    ("a line more", "echo refused 2; echo"),
    ("no line feed", "printf 'refused 2'"),
    ("no output", ":"),
    ("something on standard error", "echo refused 2; echo refused 2 >&2"),
    ("another exit status", "echo refused 2; exit 1"),
    ("an end by a signal", "echo refused 2; kill -9 $$"),
];

/// The same for a long file, of which a part has to be read.
const READINGS: [(&str, &str); 2] = [("a whole file read", "cat >/dev/null; echo refused 4"), ("nothing read", "echo refused 4")];

fn shell(script: &str) -> Program {
    Program::new(&["sh", "-c", script])
}

pub fn noticed(engine: &Engine, results: &mut Results) {
    let on_nothing = |script: &str| shell(script).run(Input::Null).fault(&report(engine, &[]));
    let long = [&longest(engine).bytes()[..], &[7; 93_750]].concat();
    let on_file = |script: &str| file_fault(engine, &shell(script), &long, 0);
    results.count("a program without a fault", on_nothing("echo refused 2"));
    results.count("a program that reads as it should", on_file("dd bs=6251 count=1 status=none >/dev/null; echo refused 4"));
    let outputs = OUTPUTS.map(|(name, script)| (name, on_nothing(script)));
    let readings = READINGS.map(|(name, script)| (name, on_file(script)));
    for (name, fault) in outputs.into_iter().chain(readings) {
        results.count(&format!("a program with {name}"), fault.is_none().then(|| "it is not noticed".to_string()));
    }
}
