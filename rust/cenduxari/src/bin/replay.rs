//! Answers replay lines over the proved engine, from the standard input.

use cenduxari::replay::replay;
use std::io::{stdin, stdout};
use std::process::ExitCode;

fn main() -> ExitCode {
    match replay(stdin().lock(), stdout().lock()) {
        Ok(()) => ExitCode::SUCCESS,
        Err(error) => {
            eprintln!("{error}");
            ExitCode::FAILURE
        }
    }
}
