//! Links libplacement.a, the archive of the proved library.
//!
//! It is looked for in target/staticlib of the repository, where `kit/archive placement` writes it,
//! or in the folder that the environment variable PLACEMENT_STATICLIB names.

use std::env;
use std::path::PathBuf;

fn main() {
    let package = PathBuf::from(env!("CARGO_MANIFEST_DIR"));
    let named = env::var_os("PLACEMENT_STATICLIB").map(PathBuf::from);
    let folder = named.unwrap_or(package.join("../../target/staticlib"));
    let archive = folder.join("libplacement.a");
    if !archive.is_file() {
        panic!(
            "{} is missing: run `kit/archive placement` first",
            archive.display()
        );
    }
    println!("cargo:rerun-if-changed=build.rs");
    println!("cargo:rerun-if-env-changed=PLACEMENT_STATICLIB");
    println!("cargo:rerun-if-changed={}", archive.display());
    println!("cargo:rustc-link-search=native={}", folder.display());
    println!("cargo:rustc-link-lib=static=placement");
}
