//! Finds the proved library by its place in the repository: an archive for the box, and one for the host side.
use std::path::Path;

fn main() {
    let here = std::env::var("CARGO_MANIFEST_DIR").expect("cargo says where the package is");
    let dir = Path::new(&here).join("../target/staticlib");
    println!("cargo:rustc-link-search=native={}", dir.display());
    for name in ["depot_c", "host_c"] {
        let archive = dir.join(format!("lib{name}.a"));
        println!("cargo:rerun-if-changed={}", archive.display());
        if !archive.exists() {
            eprintln!("A part of the proved library is missing: target/staticlib/lib{name}.a, beside rust/.");
            eprintln!("Build it with ./lib at the root of the repository (it runs `rt lib` in crates/depot_exports and crates/host_exports), and try again.");
            std::process::exit(1);
        }
        println!("cargo:rustc-link-lib=static={name}");
    }
}
