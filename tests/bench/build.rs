//! Writes Table B-1 for both languages from its data file, and compiles the methods and the program that are written in C.
use std::fs;
use std::process::Command;

const TABLE_B1: &str = "../../data/table-b1.tsv";
const HEADERS: [&str; 2] = ["src/in_c/engine.h", "../../include/yepidlaw.h"];
const METHODS: [&str; 5] = ["record", "curve", "nearest", "even", "contrast"];
const PROGRAM: &str = "src/in_c/calibrate.c";
const FLAGS: [&str; 7] = ["-std=c99", "-O3", "-Wall", "-Wextra", "-Werror", "-I../../include", "-Isrc/in_c"];

/// The luminances in units of 0.0001 cd/m², in the order of their JNDs, separated by commas.
fn table_b1() -> String {
    let text = fs::read_to_string(TABLE_B1).expect(TABLE_B1);
    let lines = text.lines().filter(|line| !line.starts_with('#'));
    let printed = lines.map(|line| line.split('\t').nth(1).expect("a luminance"));
    let luminances = printed.map(|luminance| luminance.replace('.', "").trim_start_matches('0').to_string());
    luminances.collect::<Vec<_>>().join(", ")
}

fn run(command: &mut Command) {
    let status = command.status().unwrap_or_else(|error| panic!("{command:?}: {error}"));
    assert!(status.success(), "{command:?}: {status}");
}

fn main() {
    let out = std::env::var("OUT_DIR").expect("cargo sets it");
    let entries = table_b1();
    let table = format!("{out}/table_b1.c");
    fs::write(&table, format!("#include \"engine.h\"\n\nconst uint32_t table_b1[JNDS] = {{{entries}}};\n")).expect("written");
    fs::write(format!("{out}/table_b1.rs"), format!("[{entries}]\n")).expect("written");

    let methods = METHODS.map(|method| format!("src/in_c/{method}.c"));
    let mut objects = vec![];
    for (source, name) in methods.iter().zip(METHODS).chain([(&table, "table_b1")]) {
        let object = format!("{out}/{name}.o");
        run(Command::new("gcc").args(FLAGS).args(["-c", source, "-o", &object]));
        objects.push(object);
    }
    let (library, program) = (format!("{out}/libengine_in_c.a"), format!("{out}/calibrate_in_c"));
    run(Command::new("ar").args(["rcs", &library]).args(&objects));
    run(Command::new("gcc").args(FLAGS).args([PROGRAM, &library, "-o", &program]));
    println!("cargo:rustc-env=CALIBRATE_IN_C={program}");
    println!("cargo:rustc-link-search=native={out}");
    println!("cargo:rustc-link-lib=static=engine_in_c");
    for source in methods.iter().map(String::as_str).chain(HEADERS).chain([PROGRAM, TABLE_B1]) {
        println!("cargo:rerun-if-changed={source}");
    }
}
