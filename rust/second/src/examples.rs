//! The files of examples/.

use std::fs;
use std::path::{Path, PathBuf};

/// The files with this extension in examples/ or in a folder there, of which there must be one.
pub fn files(folder: &str, extension: &str) -> Vec<PathBuf> {
    let examples = Path::new(env!("CARGO_MANIFEST_DIR")).join("../../examples");
    let all = fs::read_dir(examples.join(folder)).expect("the folder is there");
    let paths = all.map(|file| file.expect("the folder is read").path());
    let wanted = paths.filter(|path| path.extension().is_some_and(|it| it == extension));
    let files: Vec<PathBuf> = wanted.collect();
    assert!(!files.is_empty(), "{folder} has no file of the kind {extension}");
    files
}

/// The bytes of a file.
pub fn bytes(path: &Path) -> Vec<u8> {
    fs::read(path).unwrap_or_else(|error| panic!("{}: {error}", path.display()))
}

/// The scheme files of examples/schemes, each with its name and the number that the name says refuses it, or 0.
pub fn scheme_files() -> Vec<(String, Vec<u8>, u32)> {
    let named = |path: PathBuf| {
        let name = path.file_stem().expect("a file has a name").to_string_lossy().into_owned();
        let refusal = name.strip_prefix("refused-").and_then(|it| it.split('-').next());
        let number = refusal.map_or(0, |it| it.parse().expect("a number is in the name"));
        (name, bytes(&path), number)
    };
    files("schemes", "schemes").into_iter().map(named).collect()
}

/// The folder with the tables of an accepted scheme file; those of the six stand in examples/ itself.
pub fn tables_of(name: &str) -> String {
    match name {
        "six" => String::new(),
        _ => format!("schemes/{name}"),
    }
}
