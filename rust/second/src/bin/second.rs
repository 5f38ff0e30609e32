//! The second engine's `rehearse`: reads lines from the standard input and prints the answers.
//! Paper: the paragraph "Program `rehearse`" in "Figures to check".

use std::io::{stdin, stdout};
use std::process::ExitCode;

fn main() -> ExitCode {
    match second::rehearse::rehearse(&mut stdin().lock(), &mut stdout().lock()) {
        Ok(()) => ExitCode::SUCCESS,
        Err(_) => ExitCode::FAILURE,
    }
}
