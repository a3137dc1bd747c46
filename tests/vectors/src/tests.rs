//! The stored files against the reference, and the program against the stored files.
use std::fs::{self, File};
use std::path::{Path, PathBuf};

use reference::engine::Engine;
use reference::report::report;

use crate::program::{Input, Program};
use crate::{delivery, faulty, inputs, store};

#[derive(Default)]
pub struct Results {
    pub passed: u64,
    pub failed: u64,
}

impl Results {
    /// One test, with what is wrong where something is.
    pub fn count(&mut self, name: &str, fault: Option<String>) {
        match fault {
            None => self.passed += 1,
            Some(fault) => {
                println!("FAILED: {name}: {fault}");
                self.failed += 1;
            }
        }
    }
}

fn short_name(path: &Path) -> String {
    path.file_name().map_or(String::new(), |name| name.to_string_lossy().to_string())
}

/// Each file is what the reference writes today, and there is no other.
fn stored(engine: &Engine, results: &mut Results) {
    let files = store::files(engine);
    for (path, bytes) in &files {
        let same = fs::read(path).map_or(false, |stored| &stored == bytes);
        let fault = (!same).then(|| "it is missing, or not what the reference gives; 'make vectors' writes it".to_string());
        results.count(&short_name(path), fault);
    }
    let others: Vec<String> = store::present().iter().filter(|path| !files.contains_key(*path)).map(|path| short_name(path)).collect();
    results.count("the folder of the vectors", (!others.is_empty()).then(|| format!("nothing writes {}", others.join(", "))));
}

/// Document 01's word on each vector, against the reference.
fn stated(engine: &Engine, results: &mut Results) {
    for vector in store::vectors(engine) {
        results.count(&vector.name, vector.fault(&report(engine, &vector.bytes)));
    }
}

/// The stored records, of vectors and of samples.
fn records() -> Vec<PathBuf> {
    let is_record = |path: &PathBuf| path.extension().map_or(false, |extension| extension == "record");
    let mut records: Vec<PathBuf> = store::present().into_iter().filter(is_record).chain(store::samples().into_keys()).collect();
    records.sort();
    records
}

/// The program on each stored record, against its stored report.
fn on_records(program: &Program, results: &mut Results) {
    for path in records() {
        let fault = match (File::open(&path), fs::read(path.with_extension("report"))) {
            (Ok(record), Ok(report)) => program.run(Input::File(record)).fault(&report),
            _ => Some("the record or its report cannot be read".to_string()),
        };
        results.count(&format!("program on {}", short_name(&path)), fault);
    }
}

pub fn check(engine: &Engine, program: &str) -> Results {
    let mut results = Results::default();
    let program = Program::new(&[program]);
    stored(engine, &mut results);
    stated(engine, &mut results);
    on_records(&program, &mut results);
    for case in [inputs::prefixes, inputs::counts, inputs::each_place, inputs::long].iter().flat_map(|cases| cases(engine)) {
        results.count(&case.name, program.run(Input::piped(&case.bytes)).fault(&case.report));
    }
    delivery::in_pieces(engine, &program, &mut results);
    delivery::from_files(engine, &program, &mut results);
    delivery::from_nowhere(engine, &program, &mut results);
    faulty::noticed(engine, &mut results);
    results
}

/// A fault that memcheck finds shows in its standard error and in the exit status.
pub fn memory(program: &str) -> Results {
    let mut results = Results::default();
    on_records(&Program::new(&["valgrind", "--quiet", "--leak-check=full", "--error-exitcode=99", program]), &mut results);
    results
}
