//! `soak SEED CALLS` runs random calls with soundness and demand 3 after each, and prints counts.
//! Paper: "The tally" and "Refusals by place of check".

use second::lists::{run_lists, Counts, CALLS};
use std::process::ExitCode;
use std::time::Instant;

fn main() -> ExitCode {
    let arguments: Vec<String> = std::env::args().collect();
    let number = |at: usize, otherwise: u64| match arguments.get(at) {
        Some(text) => text.parse().expect("soak SEED CALLS, both numbers"),
        None => otherwise,
    };
    let mut counts = Counts::default();
    let start = Instant::now();
    let end = run_lists(number(1, 1), number(2, 1_000_000), &mut counts);
    print(&counts);
    println!("seconds {:.1}", start.elapsed().as_secs_f64());
    match end {
        Ok(()) => ExitCode::SUCCESS,
        Err(what) => {
            println!("FAILED: {what}");
            ExitCode::FAILURE
        }
    }
}

/// Prints the counts, by call and by refusal.
fn print(counts: &Counts) {
    println!("calls {} lists {}", counts.calls(), counts.lists);
    for (call, name) in CALLS.iter().enumerate() {
        print!("{name}: accepted {}", counts.accepted[call]);
        for (refusal, &times) in counts.refused[call].iter().enumerate() {
            if times > 0 {
                print!(", no {refusal} {times}");
            }
        }
        println!();
    }
    for refusal in 1..=21 {
        println!("no {refusal}: {}", counts.refusals(refusal));
    }
    for way in 1..=4 {
        println!("rows of way {way}: {}", counts.rows[way]);
    }
    let [_, _, _, take, _, order, _, clear, _, _] = counts.most_rows;
    println!("most rows of a take {take}, an order {order}, a clear {clear}");
    println!("most open orders {}, offers {}", counts.most_orders, counts.most_offers);
    println!("most numbers of a day {}", counts.most_given);
    println!("damaged {}, still sound {}", counts.damaged, counts.damaged_sound);
}
