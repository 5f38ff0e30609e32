//! Lists with their answers that lie beside the repository, for the tests of this crate and of `trials`.

use std::io::{stderr, Write};
use std::path::{Path, PathBuf};
use std::{env, fs};

/// The pairs of a folder, with names that begin so: path of the list, list, answers. The variable names the folder; else it
/// is this one beside the repository. Where there is none, there are no pairs, and a line says so.
pub fn pairs(variable: &str, folder: &str, first: &str) -> Vec<(PathBuf, Vec<u8>, Vec<u8>)> {
    let beside = || Path::new(env!("CARGO_MANIFEST_DIR")).join("../../..").join(folder);
    let named = env::var_os(variable).map(PathBuf::from);
    let place = named.clone().unwrap_or_else(beside);
    if named.is_none() && !place.exists() {
        // Not by a macro, which a test that passes would keep to itself.
        let _ = writeln!(
            stderr(),
            "No lists in {}: left out. {variable} may name them.",
            place.display()
        );
        return Vec::new();
    }
    let pairs = in_folder(&place, first);
    assert!(!pairs.is_empty(), "{} has no lists", place.display());
    pairs
}

/// The pairs of a folder that is there.
pub fn in_folder(folder: &Path, first: &str) -> Vec<(PathBuf, Vec<u8>, Vec<u8>)> {
    let entries =
        fs::read_dir(folder).unwrap_or_else(|error| panic!("{}: {error}", folder.display()));
    let mut paths: Vec<PathBuf> = entries.map(|entry| entry.unwrap().path()).collect();
    paths.sort();
    let listed = |path: &PathBuf| {
        let named = path.file_name().is_some_and(|name| name.to_string_lossy().starts_with(first));
        named && path.extension().is_some_and(|extension| extension == "in")
    };
    let pair = |path: PathBuf| {
        let answers = fs::read(path.with_extension("out")).unwrap();
        (path.clone(), fs::read(&path).unwrap(), answers)
    };
    paths.into_iter().filter(listed).map(pair).collect()
}
