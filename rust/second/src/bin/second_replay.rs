//! The second engine's `replay`: reads lines from the standard input and prints the answers.

use std::io::{stdin, stdout};
use std::process::ExitCode;

fn main() -> ExitCode {
    match second::replay::replay(&mut stdin().lock(), &mut stdout().lock()) {
        Ok(()) => ExitCode::SUCCESS,
        Err(_) => ExitCode::FAILURE,
    }
}
