//! include/cenduxari.h and src/sys.rs declare what crates/cenduxari exports, and C links it.

use std::fs;
use std::path::{Path, PathBuf};
use std::process::Command;

fn root() -> PathBuf {
    Path::new(env!("CARGO_MANIFEST_DIR")).join("../..")
}

fn text(file: &str) -> String {
    fs::read_to_string(root().join(file)).unwrap()
}

/// What stands in `text` between the first `before` and the next `after`.
fn between<'t>(text: &'t str, before: &str, after: &str) -> &'t str {
    let (_, rest) = text.split_once(before).unwrap();
    rest.split_once(after).unwrap().0
}

/// Each exported function of the proved crate: its name, and its parameters as name and type.
fn exported() -> Vec<(String, Vec<(String, String)>)> {
    let source = text("crates/cenduxari/src/lib.rt");
    let functions = source.split("pub extern \"C\" fn ").skip(1).map(|rest| {
        let (name, rest) = rest.split_once('(').unwrap();
        let (list, rest) = rest.split_once(')').unwrap();
        assert!(rest.starts_with(" -> u64\n"), "{name}");
        let list = list.split(',').map(str::trim).filter(|parameter| !parameter.is_empty());
        let parameters = list.map(|parameter| {
            let (name, form) = parameter.split_once(": ").unwrap();
            (name.to_string(), form.to_string())
        });
        (name.to_string(), parameters.collect())
    });
    functions.collect()
}

/// A parameter of the proved crate, in C.
fn in_c((name, form): &(String, String)) -> String {
    match form.as_str() {
        "u64" => format!("uint64_t {name}"),
        "&[u64]" => format!("const uint64_t *{name}, size_t {name}_len"),
        "&mut [u64]" => format!("uint64_t *{name}, size_t {name}_len"),
        "&mut [u64; 2]" => format!("uint64_t {name}[2]"),
        "&mut [u64; 3]" => format!("uint64_t {name}[3]"),
        other => panic!("{other} has no form in C"),
    }
}

/// A parameter of the proved crate, in Rust.
fn in_rust((name, form): &(String, String)) -> String {
    match form.as_str() {
        "u64" => format!("{name}: u64"),
        "&[u64]" => format!("{name}: *const u64, {name}_len: usize"),
        "&mut [u64]" => format!("{name}: *mut u64, {name}_len: usize"),
        "&mut [u64; 2]" => format!("{name}: *mut [u64; 2]"),
        "&mut [u64; 3]" => format!("{name}: *mut [u64; 3]"),
        other => panic!("{other} has no form in Rust"),
    }
}

/// The text on one line, with one space where there were several and none beside a bracket.
fn plain(text: &str) -> String {
    let words: Vec<&str> = text.split_whitespace().collect();
    words.join(" ").replace("( ", "(").replace(", )", ")")
}

#[test]
fn the_header_declares_what_is_exported() {
    let header = plain(&text("include/cenduxari.h"));
    let exported = exported();
    assert_eq!(header.matches("uint64_t cenduxari_").count(), exported.len());
    for (name, parameters) in &exported {
        let list: Vec<String> = parameters.iter().map(in_c).collect();
        let wanted = format!("uint64_t {name}({});", list.join(", "));
        assert!(header.contains(&wanted), "{wanted}");
    }
}

#[test]
fn the_rust_declarations_are_those_exported() {
    let declared = text("rust/cenduxari/src/sys.rs");
    let declared = plain(between(&declared, "extern \"C\" {", "\n}\n"));
    let exported = exported();
    assert_eq!(declared.matches("pub fn ").count(), exported.len());
    for (name, parameters) in &exported {
        let list: Vec<String> = parameters.iter().map(in_rust).collect();
        let wanted = format!("pub fn {name}({}) -> u64;", list.join(", "));
        assert!(declared.contains(&wanted), "{wanted}");
    }
}

#[test]
fn every_call_on_a_book_hands_over_its_numbers() {
    let on_a_book = |parameters: &&Vec<(String, String)>| parameters[0].0 == "book";
    let exported = exported();
    let calls: Vec<_> = exported.iter().map(|(_, list)| list).filter(on_a_book).collect();
    assert_eq!(calls.len(), 10);
    for parameters in calls {
        assert_eq!(parameters.last(), Some(&("out".into(), "&mut [u64; 2]".into())));
    }
}

#[test]
fn a_program_in_c_plays_the_papers_transcript() {
    let program = Path::new(env!("CARGO_TARGET_TMPDIR")).join("transcript");
    let compiled = Command::new("cc")
        .args(["-std=c11", "-Wall", "-Wextra", "-Wpedantic", "-Werror", "-O2", "-I"])
        .arg(root().join("include"))
        .arg(Path::new(env!("CARGO_MANIFEST_DIR")).join("tests/transcript.c"))
        .arg(env!("CENDUXARI_LIBRARY"))
        .arg("-o")
        .arg(&program)
        .output()
        .unwrap();
    assert!(compiled.status.success(), "{}", String::from_utf8_lossy(&compiled.stderr));
    let run = Command::new(&program).output().unwrap();
    assert_eq!(run.status.code(), Some(0));
    let said = "ok 0\nok 1\nok 2\nok 0\nok 1\nok 2\nt 4 8 1 2 5 455000\nok 0\nno 3\np 2 3\n";
    assert_eq!(String::from_utf8(run.stdout).unwrap(), said);
}
