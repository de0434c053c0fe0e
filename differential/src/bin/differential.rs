//! differential [--seed S] [--cases N] [--entry NAME]: the port beside the Rust, entry by entry, or
//! one of them. N is the number of random cases an entry; those of the small spaces come on top. It
//! fails at the first disagreement, and if an outcome that document 01 says is possible has no case.

use std::env;
use std::error::Error;
use std::panic::{self, AssertUnwindSafe};
use std::process::ExitCode;
use std::time::Instant;

use differential::entries::covers::Covers;
use differential::entries::faults::FaultList;
use differential::entries::floor::Floor;
use differential::entries::full::FullCopies;
use differential::entries::gossip::Gossip;
use differential::entries::init::LayoutText;
use differential::entries::layout::{LayoutCommits, LayoutRows};
use differential::entries::plan::Plan;
use differential::entries::policy::{Choice, PolicyRows};
use differential::entries::profile::ProfileText;
use differential::entries::survived::Survived;
use differential::entries::tally::{HandedIn, Replies};
use differential::entries::united::RowsUnited;
use differential::entries::unreliability::Unreliability;
use differential::entry::{Entry, check};
use differential::line::Line;
use differential::report::Report;
use differential::rng::Rng;

const USAGE: &str = "differential [--seed S] [--cases N] [--entry NAME]";

/// What is asked for on the command line.
struct Args {
    seed: u64,
    cases: u64,
    entry: Option<String>,
}

fn args() -> Result<Args, Box<dyn Error>> {
    let mut args = Args {
        seed: 1,
        cases: 100_000,
        entry: None,
    };
    let mut words = env::args().skip(1);
    while let Some(flag) = words.next() {
        let word = words.next().ok_or(USAGE)?;
        match flag.as_str() {
            "--seed" => args.seed = word.parse()?,
            "--cases" => args.cases = word.parse()?,
            "--entry" => args.entry = Some(word),
            _ => return Err(USAGE.into()),
        }
    }
    Ok(args)
}

/// Runs a case and counts it.
fn case<E: Entry>(input: &E::Input, report: &mut Report) -> Result<(), String> {
    let checked = panic::catch_unwind(AssertUnwindSafe(|| check::<E>(input)));
    let outcomes = checked
        .unwrap_or(Err("a panic outside the Rust".into()))
        .map_err(|why| format!("{}\n{why}", shown::<E>(input)))?;
    report.add::<E>(input, &outcomes);
    Ok(())
}

/// An input in words, as the numbers of a stored line, and as a request to the oracle.
fn shown<E: Entry>(input: &E::Input) -> String {
    let mut line = Line::default();
    E::words(input, &mut line);
    let request = E::request(input).unwrap_or_default();
    format!(
        "{}: {input:?}\nin numbers: {line}\nto the oracle: {request}",
        E::NAME
    )
}

/// Runs an entry; the number of its cases.
fn run<E: Entry>(args: &Args) -> Result<u64, String> {
    if args.entry.as_ref().is_some_and(|name| name != E::NAME) {
        return Ok(0);
    }
    let (start, mut report) = (Instant::now(), Report::default());
    for input in E::fixed() {
        case::<E>(&input, &mut report)?;
    }
    let mut result = Ok(());
    E::small(&mut |input| {
        if result.is_ok() {
            result = case::<E>(&input, &mut report);
        }
    });
    result?;
    let (small, mut rng) = (report.cases, Rng::new(args.seed));
    for _ in 0..args.cases / E::ONE_IN {
        case::<E>(&E::random(&mut rng), &mut report)?;
    }
    let (cases, seconds) = (report.cases, start.elapsed().as_secs_f64());
    println!(
        "{}: {cases} cases, {small} of them small, {seconds:.1} s",
        E::NAME
    );
    print!("{report}");
    match report.missing::<E>(true) {
        missing if missing.is_empty() => Ok(cases),
        missing => Err(format!("{}: no case of {missing:?}", E::NAME)),
    }
}

fn main() -> ExitCode {
    match run_all() {
        Ok(()) => ExitCode::SUCCESS,
        Err(why) => {
            eprintln!("{why}");
            ExitCode::FAILURE
        }
    }
}

fn run_all() -> Result<(), Box<dyn Error>> {
    let args = args()?;
    oracle::api::quiet();
    let build = if oracle::api::debug_build() {
        "debug"
    } else {
        "release"
    };
    println!(
        "seed {}, {} random cases an entry, the oracle a {build} build",
        args.seed, args.cases
    );
    let start = Instant::now();
    let cases = run::<ProfileText>(&args)?
        + run::<Unreliability>(&args)?
        + run::<FaultList>(&args)?
        + run::<Covers>(&args)?
        + run::<RowsUnited>(&args)?
        + run::<Survived>(&args)?
        + run::<LayoutRows>(&args)?
        + run::<LayoutCommits>(&args)?
        + run::<Plan>(&args)?
        + run::<FullCopies>(&args)?
        + run::<Floor>(&args)?
        + run::<Choice>(&args)?
        + run::<PolicyRows>(&args)?
        + run::<LayoutText>(&args)?
        + run::<Gossip>(&args)?
        + run::<Replies>(&args)?
        + run::<HandedIn>(&args)?;
    if cases == 0 {
        return Err("no entry has that name".into());
    }
    println!(
        "{cases} cases, {:.0} s, seed {}: no disagreement",
        start.elapsed().as_secs_f64(),
        args.seed
    );
    Ok(())
}
