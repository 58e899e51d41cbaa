//! Tells the linker where `libtest_calls.a` and `liboperator_records.a` lie, and
//! `libentries.a` if asked for.

use std::env;
use std::path::PathBuf;

fn main() {
    println!("cargo:rerun-if-changed=build.rs");
    library("libtest_calls.a", "TEST_CALLS_DIR");
    library("liboperator_records.a", "TEST_CALLS_DIR");
    if env::var_os("CARGO_FEATURE_ENTRIES").is_some() {
        library("libentries.a", "ENTRIES_DIR");
    }
}

/// A library of the folder that the variable names, or of target/staticlib.
fn library(name: &str, variable: &str) {
    let manifest = PathBuf::from(env::var("CARGO_MANIFEST_DIR").expect("set by cargo"));
    let folder = match env::var_os(variable) {
        Some(folder) => PathBuf::from(folder),
        None => manifest.join("../target/staticlib"),
    };
    println!("cargo:rustc-link-search=native={}", folder.display());
    println!("cargo:rerun-if-env-changed={variable}");
    println!("cargo:rerun-if-changed={}", folder.join(name).display());
}
