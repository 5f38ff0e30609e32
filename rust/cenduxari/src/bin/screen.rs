//! Asks the proved functions in words, and with no words shows paper 01's figures 1, 5 and 6.
//! Exits with 1 where a call is refused, with 2 where the words are not understood.

use cenduxari::{limits, share, Limits, Refusal};
use std::env;
use std::process::ExitCode;

/// What is understood here.
const WORDS: &str = "Ask by: share AMOUNT REMAINING.. or limits DAYS KIND CAPACITY ASSET PERIOD";

/// The paper's figures that these calls show.
const FIGURES: [(&str, &[&str]); 3] = [
    ("Figure 1: sharing 4 over 3, 3, 3, then 2 over 1, 2, 2", &["share 4 3 3 3", "share 2 1 2 2"]),
    ("Figure 5: a generator, kind 2, of 100 kW, one day", &["limits 1 2 100 0 0"]),
    (
        "Figure 6: a solar generator, kind 1, of 100 kW, hours 5, 6, 19 and 20",
        &["limits 1 1 100 0 5", "limits 1 1 100 0 6", "limits 1 1 100 0 19", "limits 1 1 100 0 20"],
    ),
];

enum Failure {
    Refused(Refusal),
    NotUnderstood,
}

fn main() -> ExitCode {
    let words: Vec<String> = env::args().skip(1).collect();
    let words: Vec<&str> = words.iter().map(String::as_str).collect();
    let said = if words.is_empty() { figures() } else { answer(&words) };
    match said {
        Ok(text) => print!("{text}"),
        Err(Failure::Refused(refusal)) => {
            println!("refusal {}: {refusal}", refusal.number());
            return ExitCode::from(1);
        }
        Err(Failure::NotUnderstood) => {
            eprintln!("{WORDS}");
            return ExitCode::from(2);
        }
    }
    ExitCode::SUCCESS
}

/// The answer to one call.
fn answer(words: &[&str]) -> Result<String, Failure> {
    let (call, words) = words.split_first().ok_or(Failure::NotUnderstood)?;
    let numbers: Result<Vec<u64>, _> = words.iter().map(|word| word.parse()).collect();
    match (*call, numbers.map_err(|_| Failure::NotUnderstood)?.as_slice()) {
        ("share", [amount, amounts @ ..]) => {
            let mut parts = vec![0; amounts.len()];
            share(*amount, amounts, &mut parts).map_err(Failure::Refused)?;
            let parts: Vec<String> = parts.iter().map(u64::to_string).collect();
            Ok(parts.join(" ") + "\n")
        }
        ("limits", &[days, kind, capacity, asset, period]) => {
            let Limits { hour, term, volume } =
                limits(days, kind, capacity, asset, period).map_err(Failure::Refused)?;
            Ok(format!("hour limit {hour}, term limit {term}, volume limit {volume}\n"))
        }
        _ => Err(Failure::NotUnderstood),
    }
}

/// The paper's figures, each call with its answer.
fn figures() -> Result<String, Failure> {
    let mut text = String::new();
    for (figure, calls) in FIGURES {
        text += &format!("{figure}\n");
        for call in calls {
            let words: Vec<&str> = call.split(' ').collect();
            text += &format!("  {call}: {}", answer(&words)?);
        }
    }
    Ok(text)
}
