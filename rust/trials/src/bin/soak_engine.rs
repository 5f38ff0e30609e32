//! `soak_engine CALLS SEED` feeds random lists to the proved engine and to the second one, with damaged books between,
//! then orders and clears of deep books, and clears judged by what market staff want, and prints counts. One list uses all
//! numbers of a day.

use second::manners::{MANNERS, NUMBERS};
use std::process::ExitCode;
use std::time::Instant;
use trials::clears::run_clears;
use trials::deep::run_deep;
use trials::exported;
use trials::lists::{run_list, run_lists, Counts, Plan};

fn main() -> ExitCode {
    let arguments: Vec<String> = std::env::args().collect();
    let number = |at: usize, otherwise: u64| match arguments.get(at) {
        Some(text) => text.parse().expect("soak_engine CALLS SEED, both numbers"),
        None => otherwise,
    };
    let (calls, seed) = (number(1, 1_000_000), number(2, 1));
    let plan = Plan { engine: exported::make, damage: [8, 4] };
    let seldom = Plan { damage: [200, 1], ..plan };
    let numbers = &MANNERS[NUMBERS];
    let mut counts = Counts::default();
    let start = Instant::now();
    let end = run_list(seldom, seed, numbers, numbers.length, &mut counts)
        .and_then(|()| run_lists(plan, seed, calls, &mut counts))
        .and_then(|()| run_deep(plan.engine, seed, calls / 4, &mut counts))
        .and_then(|()| run_clears(plan.engine, seed, calls / 100));
    print!("{counts}");
    println!("seconds {:.1}", start.elapsed().as_secs_f64());
    match end {
        Ok([rows, matchings]) => {
            println!("rows of clears {rows}, beside matchings {matchings}");
            ExitCode::SUCCESS
        }
        Err(fault) => {
            println!("FAILED: {fault}");
            ExitCode::FAILURE
        }
    }
}
