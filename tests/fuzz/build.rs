//! Compiles what handles signals, which is written in C.
use std::process::Command;

const SOURCE: &str = "src/signals.c";

fn run(command: &mut Command) {
    let status = command.status().unwrap_or_else(|error| panic!("{command:?}: {error}"));
    assert!(status.success(), "{command:?}: {status}");
}

fn main() {
    let out = std::env::var("OUT_DIR").expect("cargo sets it");
    let (object, library) = (format!("{out}/signals.o"), format!("{out}/libsignals.a"));
    run(Command::new("gcc").args(["-std=gnu11", "-O2", "-Wall", "-Wextra", "-Werror", "-c", SOURCE, "-o", &object]));
    run(Command::new("ar").args(["rcs", &library, &object]));
    println!("cargo:rustc-link-search=native={out}");
    println!("cargo:rustc-link-lib=static=signals");
    println!("cargo:rerun-if-changed={SOURCE}");
}
