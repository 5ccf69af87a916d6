//! The project's files.

use std::fs;
use std::path::{Path, PathBuf};

/// The path of a file, given from the project's root.
pub fn path(name: &str) -> PathBuf {
    Path::new(env!("CARGO_MANIFEST_DIR")).join("../..").join(name)
}

pub fn read(name: &str) -> Result<Vec<u8>, String> {
    fs::read(path(name)).map_err(|error| format!("{name}: {error}"))
}

/// A file that is a text.
pub fn read_text(name: &str) -> Result<String, String> {
    String::from_utf8(read(name)?).map_err(|error| format!("{name}: {error}"))
}

/// The examples whose names end so, in their order.
pub fn examples(endings: &[&str]) -> Vec<String> {
    let entries = fs::read_dir(path("examples")).expect("the examples are there");
    let name = |entry: fs::DirEntry| format!("examples/{}", entry.file_name().to_string_lossy());
    let names = entries.map(|entry| name(entry.expect("the example is there")));
    let has_ending = |name: &String| endings.iter().any(|ending| name.ends_with(ending));
    let mut names: Vec<String> = names.filter(has_ending).collect();
    names.sort();
    names
}
