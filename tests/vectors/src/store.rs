//! The stored files: `NAME.record` and `NAME.report` of every vector, and the reports of the samples, whose records are written by tools/job.
use std::collections::BTreeMap;
use std::fs;
use std::path::PathBuf;

use reference::engine::Engine;
use reference::report::report;

use crate::vector::Vector;
use crate::{refused, sound};

fn root() -> PathBuf {
    PathBuf::from(concat!(env!("CARGO_MANIFEST_DIR"), "/../.."))
}

pub fn vectors_folder() -> PathBuf {
    root().join("tests/vectors/stored")
}

pub fn samples_folder() -> PathBuf {
    root().join("samples")
}

pub fn vectors(engine: &Engine) -> Vec<Vector> {
    let mut vectors = sound::vectors(engine);
    vectors.extend(refused::vectors(engine));
    vectors
}

fn read(path: &PathBuf) -> Vec<u8> {
    fs::read(path).unwrap_or_else(|error| panic!("{}: {error}", path.display()))
}

/// The records of the samples, by the path of each.
pub fn samples() -> BTreeMap<PathBuf, Vec<u8>> {
    let files = fs::read_dir(samples_folder()).expect("there are samples").map(|file| file.expect("a file").path());
    let records = files.filter(|path| path.extension().map_or(false, |extension| extension == "record"));
    records.map(|path| (path.clone(), read(&path))).collect()
}

/// The first lines of a report, as the list has them.
fn answer(report: &[u8]) -> String {
    let text = String::from_utf8_lossy(report);
    text.lines().take(4).collect::<Vec<_>>().join(", ")
}

fn list(vectors: &[(Vector, Vec<u8>)]) -> Vec<u8> {
    let mut text =
        "# Inputs of the program\n\nEach is a file `NAME.record`, with the whole output in `NAME.report`. Written by `make vectors`.\n\n"
            .to_string();
    text += "| Name | Input | Bytes | Output begins |\n|---|---|---|---|\n";
    for (vector, report) in vectors {
        text += &format!("| `{}` | {} | {} | {} |\n", vector.name, vector.about, vector.bytes.len(), answer(report));
    }
    text.into_bytes()
}

/// All that is stored beside the samples' records, by its path.
pub fn files(engine: &Engine) -> BTreeMap<PathBuf, Vec<u8>> {
    let with_report = |vector: Vector| {
        let report = report(engine, &vector.bytes);
        (vector, report)
    };
    let vectors: Vec<(Vector, Vec<u8>)> = vectors(engine).into_iter().map(with_report).collect();
    let mut files = BTreeMap::from([(vectors_folder().join("README.md"), list(&vectors))]);
    for (vector, report) in vectors {
        for (kind, bytes) in [("record", vector.bytes), ("report", report)] {
            let before = files.insert(vectors_folder().join(format!("{}.{kind}", vector.name)), bytes);
            assert!(before.is_none(), "two vectors have the name {}", vector.name);
        }
    }
    files.extend(samples().into_iter().map(|(path, record)| (path.with_extension("report"), report(engine, &record))));
    files
}

/// The files of the vectors that are there.
pub fn present() -> Vec<PathBuf> {
    let files = fs::read_dir(vectors_folder()).into_iter().flatten();
    files.map(|file| file.expect("a file").path()).collect()
}

pub fn write(engine: &Engine) {
    let files = files(engine);
    for path in present().iter().filter(|path| !files.contains_key(*path)) {
        fs::remove_file(path).expect("a file of the vectors can be removed");
    }
    fs::create_dir_all(vectors_folder()).expect("the folder of the vectors can be made");
    for (path, bytes) in &files {
        fs::write(path, bytes).expect("a file of the vectors can be written");
    }
    println!("{} files", files.len());
}
