//! Finds the ported Rust (KAN_RUST) and the archives of the proved code (ESTIMATOR_LIB).

use std::env;
use std::fs;
use std::path::{Path, PathBuf};

fn main() {
    let oracle = env::var("CARGO_MANIFEST_DIR").expect("cargo names the oracle's folder");
    let root = Path::new(&oracle)
        .parent()
        .expect("the oracle lies in the repository");
    declare_ported_modules(&folder(root, "KAN_RUST", "../shared/docs/src"));

    let archives = folder(root, "ESTIMATOR_LIB", "target/staticlib");
    println!("cargo:rustc-link-search=native={}", archives.display());
    println!("cargo:rerun-if-changed={}", archives.display());
    // What bench/run.sh compiles for the program `bench`.
    let by_hand = folder(root, "HANDWRITTEN_LIB", "target/bench");
    println!("cargo:rustc-link-search=native={}", by_hand.display());
    if by_hand.is_dir() {
        println!("cargo:rerun-if-changed={}", by_hand.display());
    }
    println!("cargo:rerun-if-changed=build.rs");
}

/// The folder that an environment variable names, taken from the repository's root.
fn folder(root: &Path, variable: &str, default: &str) -> PathBuf {
    println!("cargo:rerun-if-env-changed={variable}");
    root.join(env::var(variable).unwrap_or_else(|_| default.to_owned()))
}

/// Writes the module tree that the ported Rust names by `crate::`, each file taken where it lies.
fn declare_ported_modules(rust: &Path) {
    let kan = rust.join("src/network/kan.rs");
    let spline = rust.join("src/data_structures/spline.rs");
    for file in [&kan, &spline] {
        assert!(
            file.is_file(),
            "no ported Rust at {}: set KAN_RUST",
            file.display()
        );
    }
    let modules = format!(
        "#[allow(dead_code)]\npub mod network {{\n    #[path = {kan:?}]\n    pub mod kan;\n}}\n\
         #[allow(dead_code)]\npub mod data_structures {{\n    #[path = {spline:?}]\n    pub mod spline;\n}}\n"
    );
    let out = env::var("OUT_DIR").expect("cargo names a folder for what is written here");
    fs::write(Path::new(&out).join("ported_modules.rs"), modules)
        .expect("the folder can be written");
}
