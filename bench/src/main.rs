//! Times the port beside the original Rust on the same prepared inputs, and fails if a case is
//! below its target, or below 1; cases that must do more than the original are named. With words as
//! arguments, only the cases whose names have one of them are timed.
//!
//! Cases of widths up to 64 have the names that they had when rows were one word; those of a width
//! of 255 stand beside them with `w 255` in their names.
//!
//! Built with CALLBOARD_BEFORE, the folder of another archive, it times that too: the last column
//! is how many times as long as the port it took.

mod before;
mod clock;
mod coverage;
mod faults;
mod inputs;
mod layouts;
mod plans;
mod policy;
mod replies;
mod table;
mod texts;
mod timing;

use std::env;
use std::process::ExitCode;

use timing::{Case, Measured, Prepared, ROUNDS};

fn main() -> ExitCode {
    let words: Vec<String> = env::args().skip(1).collect();
    let is_wanted =
        |case: &Case| words.is_empty() || words.iter().any(|word| case.name.contains(word));
    let cases = cases().into_iter().filter(is_wanted);
    let all = measure(cases.map(Case::prepare).collect());
    table::print(&all);
    verdict(all)
}

fn cases() -> Vec<Case> {
    [
        faults::cases(),
        coverage::cases(),
        layouts::cases(),
        plans::cases(),
        texts::cases(),
        policy::cases(),
        replies::cases(),
    ]
    .into_iter()
    .flatten()
    .collect()
}

fn measure(mut cases: Vec<Prepared>) -> Vec<Measured> {
    for round in 1..=ROUNDS {
        eprintln!("round {round} of {ROUNDS}");
        cases.iter_mut().for_each(Prepared::take_round);
    }
    cases.into_iter().map(Prepared::measured).collect()
}

fn verdict(mut all: Vec<Measured>) -> ExitCode {
    all.retain(Measured::is_below);
    for (measured, work) in all.iter().filter_map(|m| Some((m, m.beside?))) {
        println!("\nSlower, since {work}: {}", measured.name);
    }
    all.retain(|measured| measured.beside.is_none());
    if all.is_empty() {
        println!("\nNo other case is below its target, or below 1.");
        return ExitCode::SUCCESS;
    }
    println!("\nBelow the target, or below 1:\n");
    table::print(&all);
    ExitCode::FAILURE
}
