//! The command ./cenduxari, in a folder of its own, with tools that only say what they are asked.

use std::fs::{self, Permissions};
use std::os::unix::fs::PermissionsExt;
use std::path::{Path, PathBuf};
use std::process::{Command, Stdio};
use std::sync::OnceLock;

/// The tools by their names. `rt` proves two crates and builds the archive and the program in the crate that it is asked for, unless
/// it is to fail.
const TOOLS: [(&str, &str); 4] = [
    (
        "rt",
        "echo 'fn one::half: proved'; echo 'crate one: modules loaded=1'; echo 'logic=proved functions=1'
        echo 'crate two: modules loaded=1'; echo 'logic=proved functions=2'
        [ -z \"${FAILS-}\" ] || exit 1
        mkdir -p out; touch out/libcenduxari.a
        printf '#!/bin/sh\\necho rehearsed; cat' >out/rehearse; chmod +x out/rehearse",
    ),
    ("cargo", "[ \"$1\" != --version ] || { echo cargo ${RUST-9.0.0}; exit; }; pwd; echo \"$*\"; cat"),
    ("rustc", "echo rustc 9.0.0"),
    ("cc", ""),
];

/// The folder with the tools and a caller's folder.
fn place() -> &'static Path {
    static PLACE: OnceLock<PathBuf> = OnceLock::new();
    PLACE.get_or_init(|| {
        let place = Path::new(env!("CARGO_TARGET_TMPDIR")).join("command");
        let _ = fs::remove_dir_all(&place);
        for folder in ["tools", "caller"] {
            fs::create_dir_all(place.join(folder)).unwrap();
        }
        for (name, says) in TOOLS {
            let tool = place.join("tools").join(name);
            fs::write(&tool, format!("#!/bin/sh\n{says}\n")).unwrap();
            fs::set_permissions(tool, Permissions::from_mode(0o755)).unwrap();
        }
        fs::write(place.join("caller/list"), "a line\n").unwrap();
        place
    })
}

/// A repository of this name with the command, where nothing is built.
fn repository(name: &str) -> PathBuf {
    let repository = place().join(name);
    for folder in [".ci", "rust", "crates/cenduxari", "crates/rehearse"] {
        fs::create_dir_all(repository.join(folder)).unwrap();
    }
    for file in ["cenduxari", ".ci/setup", "rust/Cargo.toml"] {
        let original = Path::new(env!("CARGO_MANIFEST_DIR")).join("../..").join(file);
        fs::copy(original, repository.join(file)).unwrap();
    }
    // No crate of this list is looked for here by the real `rt`, which goes through all folders.
    fs::write(repository.join("crates.txt"), "").unwrap();
    repository
}

/// What the command prints, what it says beside that, and its status.
fn asked(
    repository: &Path,
    words: &[&str],
    variables: &[(&str, &str)],
) -> (String, String, Option<i32>) {
    let path = format!("{}:{}", place().join("tools").display(), std::env::var("PATH").unwrap());
    let run = Command::new("bash")
        .arg(repository.join("cenduxari"))
        .args(words)
        .current_dir(place().join("caller"))
        .env("PATH", path)
        .envs(variables.iter().copied())
        .stdin(Stdio::null())
        .output()
        .unwrap();
    let text = |bytes| String::from_utf8(bytes).unwrap();
    (text(run.stdout), text(run.stderr), run.status.code())
}

#[test]
fn help_names_every_word() {
    let repository = repository("help");
    let (help, _, status) = asked(&repository, &["help"], &[]);
    assert_eq!(status, Some(0));
    for word in ["story", "curve", "share", "limits", "rehearse", "replay", "help"] {
        assert!(help.contains(&format!("./cenduxari {word} ")), "{word}");
    }
    assert_eq!(asked(&repository, &["--help"], &[]), (help.clone(), String::new(), Some(0)));
    assert_eq!(asked(&repository, &["clear"], &[]), (String::new(), help, Some(2)));
}

#[test]
fn an_older_rust_is_told_in_a_sentence() {
    let repository = repository("older");
    for (version, status) in [("1.63.0", 2), ("1.9.0", 2), ("1.73.0", 1), ("1.100.0-nightly", 1)] {
        // Where Rust is not too old, the proofs begin.
        let (_, said, told) = asked(&repository, &["story"], &[("RUST", version), ("FAILS", "1")]);
        assert_eq!(told, Some(status), "{version}: {said}");
        let sentence = format!("cargo is {version} here, and 1.73 or later is needed");
        assert_eq!(said.starts_with(&sentence) && said.lines().count() == 1, status == 2, "{said}");
        assert_eq!(said.contains("one::half: proved"), status == 1, "{said}");
    }
}

#[test]
fn builds_once_and_takes_files_from_the_callers_folder() {
    let repository = repository("files");
    let caller = place().join("caller").canonicalize().unwrap();
    let (curve, said, status) = asked(&repository, &["curve", "a.svg"], &[]);
    assert_eq!(status, Some(0), "{said}");
    assert!(curve.starts_with(&format!("{}\n", caller.display())), "{curve}");
    assert!(curve.ends_with("--example curve -- a.svg\n"), "{curve}");
    // A line for each crate as it is proved, once.
    assert!(said.ends_with("\n  one proved\n  two proved\n") && !said.contains("half"), "{said}");
    let (replayed, said, _) = asked(&repository, &["replay", "list"], &[]);
    assert!(replayed.ends_with("--bin replay\na line\n"), "{replayed}");
    assert_eq!(said, "");
    // The program is built by itself, and once too.
    let (rehearsed, said, status) = asked(&repository, &["rehearse", "list"], &[]);
    assert_eq!((rehearsed.as_str(), status), ("rehearsed\na line\n", Some(0)));
    assert!(said.ends_with("\n  one proved\n  two proved\n"), "{said}");
    assert_eq!(
        asked(&repository, &["rehearse", "list"], &[]),
        ("rehearsed\na line\n".into(), String::new(), Some(0))
    );
    let (rehearsed, said, status) = asked(&repository, &["rehearse", "no list"], &[]);
    assert!(rehearsed.is_empty() && said.contains("no list") && status == Some(1), "{said}");
}
