//! The comparer: holds the first program to the second, and shows that it would see a difference.

#![forbid(unsafe_code)]

mod brute;
mod calls;
mod case;
mod causes;
mod cells;
mod count_calls;
mod count_cells;
mod count_gates;
mod count_grids;
mod count_routes;
mod count_texts;
mod counts;
mod damage;
mod drops;
mod eyes;
mod families;
mod gates;
mod grids;
mod least;
mod options;
mod programs;
mod random;
mod reply;
mod routes;
mod setups;
mod simpler;
mod singles;
mod stores;
mod tally;
mod telling;
mod texts;
mod trial;
mod written;

use options::{Options, USAGE};
use second::rules::Turn;
use std::process::ExitCode;
use std::time::{Duration, Instant};
use trial::Trial;

const SECONDS_A_MINUTE: u64 = 60;

fn main() -> ExitCode {
    let options = match Options::read(std::env::args().skip(1)) {
        Ok(options) => options,
        Err(said) => {
            eprintln!("{said}\n{USAGE}");
            return ExitCode::FAILURE;
        }
    };
    println!("seed {}", options.seed);
    let start = Instant::now();
    let until = start + Duration::from_secs(options.minutes * SECONDS_A_MINUTE);
    let mut trial = Trial::new(options);
    let mut rounds = 0;
    while rounds == 0 || Instant::now() < until && !trial.patience.is_over() {
        trial.round(rounds);
        rounds += 1;
    }
    let failed = summary(&trial);
    let seconds = start.elapsed().as_secs();
    println!("\n{rounds} rounds, {seconds} s, seed {}", trial.options.seed);
    end(&trial, failed)
}

/// Prints the tables; hands back the checks, each with whether it holds.
fn summary(trial: &Trial) -> Vec<(String, bool)> {
    trial.counts.tables().iter().for_each(|table| table.print());
    trial.tell_contradiction();
    let mut checks = trial.checks();
    checks.extend(trial.count_checks());
    if trial.options.turn == Turn::None {
        checks.extend(trial.eye_checks());
    }
    checks
}

/// Prints each check; the last line says how many passed and failed.
fn end(trial: &Trial, checks: Vec<(String, bool)>) -> ExitCode {
    println!();
    if trial.options.turn != Turn::None {
        println!("a rule is turned ({:?}), so a difference is due", trial.options.turn);
    }
    if trial.patience.is_over() {
        println!("the first program hung too often, so the rest was not asked");
    }
    for (name, holds) in &checks {
        println!("{} {name}", if *holds { "passed" } else { "FAILED" });
    }
    let passed = checks.iter().filter(|(_, holds)| *holds).count();
    let failed = checks.len() - passed;
    println!("{passed} passed, {failed} failed");
    match failed {
        0 => ExitCode::SUCCESS,
        _ => ExitCode::FAILURE,
    }
}
