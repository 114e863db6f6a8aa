//! Links the static libraries of the proved crates that archives.txt lists.
//!
//! They are looked for in target/staticlib of the repository, where `kit/archive NAME` writes them,
//! or in the folder that the environment variable PLACEMENT_STATICLIB names.

use std::env;
use std::fs;
use std::path::{Path, PathBuf};

fn main() {
    let package = variable("CARGO_MANIFEST_DIR").expect("cargo names the package's folder");
    let folder = variable("PLACEMENT_STATICLIB").unwrap_or(package.join("../../target/staticlib"));
    println!("cargo:rerun-if-env-changed=PLACEMENT_STATICLIB");
    println!("cargo:rustc-link-search=native={}", folder.display());
    for name in names(&package).lines() {
        link(&folder, name);
    }
}

/// The folder that an environment variable names.
fn variable(name: &str) -> Option<PathBuf> {
    env::var_os(name).map(PathBuf::from)
}

/// The names of the libraries, one to a line; the gate builds the same ones.
fn names(package: &Path) -> String {
    println!("cargo:rerun-if-changed=archives.txt");
    fs::read_to_string(package.join("archives.txt")).expect("archives.txt is read")
}

/// Links one archive, which must have been built before.
fn link(folder: &Path, name: &str) {
    let archive = folder.join(format!("lib{name}.a"));
    if !archive.is_file() {
        panic!("{} is missing: run `kit/archive {name}` first", archive.display());
    }
    println!("cargo:rerun-if-changed={}", archive.display());
    println!("cargo:rustc-link-lib=static={name}");
}
