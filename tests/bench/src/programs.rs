//! The programs of the three sides: whole processes, a record on standard input.
use std::fs::{self, File};
use std::path::{Path, PathBuf};
use std::process::{Command, Stdio};

use crate::records::Records;
use crate::side::Side;

/// What stands beside this program.
fn beside(name: &str) -> PathBuf {
    std::env::current_exe().expect("its own path").with_file_name(name)
}

/// `rt ci` and `rt run` write the engine's.
pub fn path(side: Side) -> PathBuf {
    match side {
        Side::Engine => Path::new(env!("CARGO_MANIFEST_DIR")).join("../../crates/calibrate/out/calibrate"),
        Side::Rust => beside("calibrate_in_rust"),
        Side::C => PathBuf::from(env!("CALIBRATE_IN_C")),
    }
}

/// The records as files.
pub struct Inputs(PathBuf);

impl Inputs {
    pub fn new(records: &Records) -> Inputs {
        let inputs = Inputs(beside("records"));
        fs::create_dir_all(&inputs.0).expect("a folder for records");
        for &place in &records.for_programs {
            fs::write(inputs.file(place), &records.list[place as usize]).expect("a record's file");
        }
        inputs
    }

    pub fn file(&self, place: u32) -> PathBuf {
        self.0.join(place.to_string())
    }

    fn command(&self, side: Side, place: u32) -> Command {
        let mut command = Command::new(path(side));
        command.stdin(File::open(self.file(place)).expect("a record's file"));
        command
    }

    /// One whole run; what it prints goes nowhere. 0 where it succeeds.
    pub fn run(&self, side: Side, place: u32) -> u32 {
        let status = self.command(side, place).stdout(Stdio::null()).status();
        u32::from(!status.unwrap_or_else(|error| panic!("{}: {error}", path(side).display())).success())
    }

    /// What a run prints, where it succeeds and prints no error.
    pub fn report(&self, side: Side, place: u32) -> Option<Vec<u8>> {
        let output = self.command(side, place).output().ok()?;
        (output.status.success() && output.stderr.is_empty()).then_some(output.stdout)
    }
}
