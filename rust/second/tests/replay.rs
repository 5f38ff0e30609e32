//! The second engine's `replay`.

use std::fs::{self, File};
use std::path::Path;
use std::process::Command;

/// The list ends without a line feed.
#[test]
fn the_program_answers_a_list() {
    let list = Path::new(env!("CARGO_MANIFEST_DIR")).join("../replay-lists/lines.in");
    let input = File::open(&list).unwrap();
    let run = Command::new(env!("CARGO_BIN_EXE_second_replay")).stdin(input).output().unwrap();
    assert_eq!(run.status.code(), Some(0));
    assert!(run.stdout == fs::read(list.with_extension("out")).unwrap());
}
