//! Links the engine's static libraries, which `rt lib` writes in their crates' folders.
fn main() {
    let crates = std::env::var("CARGO_MANIFEST_DIR").expect("cargo sets it") + "/../../crates";
    for library in ["gsdf_values", "record_values", "even_values", "yepidlaw"] {
        let folder = format!("{crates}/{library}/out");
        println!("cargo:rustc-link-search=native={folder}");
        println!("cargo:rustc-link-lib=static={library}");
        println!("cargo:rerun-if-changed={folder}/lib{library}.a");
    }
}
