//! Links the engine, which `rt lib` writes in the folder of the crate yepidlaw.
fn main() {
    let folder = std::env::var("CARGO_MANIFEST_DIR").expect("cargo sets it") + "/../../crates/yepidlaw/out";
    println!("cargo:rustc-link-search=native={folder}");
    println!("cargo:rustc-link-lib=static=yepidlaw");
    println!("cargo:rerun-if-changed={folder}/libyepidlaw.a");
}
