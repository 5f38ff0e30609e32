//! The program behind ./cenduxari.

use std::process::Command;

/// What the program prints, and its exit status.
fn screen(words: &str) -> (String, Option<i32>) {
    let output =
        Command::new(env!("CARGO_BIN_EXE_screen")).args(words.split_whitespace()).output().unwrap();
    (String::from_utf8(output.stdout).unwrap(), output.status.code())
}

fn says(words: &str, text: &str, status: i32) {
    assert_eq!(screen(words), (text.to_string(), Some(status)), "{words}");
}

#[test]
fn shares() {
    says("share 4 3 3 3", "2 1 1\n", 0);
    says("share 2 1 2 2", "0 1 1\n", 0);
}

#[test]
fn gives_the_limits() {
    says("limits 1 2 100 0 0", "hour limit 100, term limit 2400, volume limit 2880\n", 0);
    says(
        "limits 31 2 5000000 0 0",
        "hour limit 5000000, term limit 3720000000, volume limit 4464000000\n",
        0,
    );
}

#[test]
fn a_refusal_has_its_number() {
    for (words, number) in [
        ("share 4", 9),
        ("share 0 3", 9),
        ("share 4 3", 9),
        ("limits 0 0 0 4000000001 24", 2),
        ("limits 1 0 0 4000000001 24", 3),
        ("limits 1 4 0 0 24", 4),
        ("limits 1 4 1 4000000001 24", 4),
        ("limits 1 4 1 0 24", 10),
    ] {
        let (text, status) = screen(words);
        assert!(text.starts_with(&format!("refusal {number}: the")), "{words}: {text}");
        assert_eq!((text.lines().count(), status), (1, Some(1)), "{words}: {text}");
    }
}

#[test]
fn other_words_are_not_understood() {
    for words in [
        "share",
        "share x",
        "share -1 3",
        "limits",
        "limits 1 2 100 0",
        "limits 1 2 100 0 0 0",
        "clear",
    ] {
        says(words, "", 2);
    }
}

#[test]
fn shows_the_figures() {
    let (text, status) = screen("");
    assert_eq!(status, Some(0));
    for line in [
        "share 4 3 3 3: 2 1 1",
        "share 2 1 2 2: 0 1 1",
        "limits 1 2 100 0 0: hour limit 100, term limit 2400, volume limit 2880",
        "limits 1 1 100 0 5: hour limit 0, term limit 1000, volume limit 1200",
        "limits 1 1 100 0 6: hour limit 100, term limit 1000, volume limit 1200",
        "limits 1 1 100 0 19: hour limit 100, term limit 1000, volume limit 1200",
        "limits 1 1 100 0 20: hour limit 0, term limit 1000, volume limit 1200",
    ] {
        assert!(text.lines().any(|said| said.trim() == line), "{line}");
    }
}
