//! stored DIR [--seed S]: writes a sample of the Rust's answers for the gate to replay, a file an
//! entry. The port is not asked: a refusal is document 01's, any other answer the Rust's. Inputs
//! whose answer is a listed difference are left out.
//!
//! # Format
//!
//! A line is a case: hexadecimal numbers in lower case, without leading zeros, one space between
//! them, and a newline; at most 400 numbers. An empty line is filler: no line crosses a multiple of
//! 65,536 bytes of its file, so that a file can be read in blocks of that size.
//!
//! A line has the parameters of the C function in their order, and then its answer.
//!
//! - A float is its 64 bits; in an answer every NaN is 7ff8000000000000.
//! - A row is its four words, lowest shards first; a table of rows is the slice of all its words.
//! - A slice that is read is its length and its elements, a text its length and its bytes.
//! - A slice that is written is its length alone; before the call its word i is abad1dea00 + i.
//! - A profile is domain_count, prob_count, runtime, threshold, then as many probabilities and
//!   domains as are counted, at most 16 and 64. The rest of the struct may hold anything.
//! - An answer is the fields of the C struct, the refusal first; behind a refusal all are 0. Then,
//!   if a slice is written, its length and its words after the call.
//!
//! Two files differ from this.
//!
//! - `profile`: the answer is the refusal alone, or 0 and a profile.
//! - `tally`: a line is a sequence: n, quorum, d, w, ballot, high, low, and the opening's refusal.
//!   If that is 0, the number of replies follows, and for each reply source, ballot, high, low,
//!   row, the fault list, then its refusal and status, and the tally after it: heard, committed and
//!   n rows.
//!
//! `policy` has the parameters of callboard_policy_rows.
//!
//! At least a quarter of the accepted inputs of an entry with rows are wider than 64. A file
//! `base_init` beside these is written no more: it has the lines of `init` that were read while a
//! row was one word, and they stay as they are.

use std::error::Error;
use std::path::Path;
use std::{env, fs};

use differential::entries::covers::Covers;
use differential::entries::faults::FaultList;
use differential::entries::floor::Floor;
use differential::entries::full::FullCopies;
use differential::entries::gossip::Gossip;
use differential::entries::init::LayoutText;
use differential::entries::layout::{LayoutCommits, LayoutRows};
use differential::entries::plan::Plan;
use differential::entries::policy::PolicyRows;
use differential::entries::profile::ProfileText;
use differential::entries::survived::Survived;
use differential::entries::tally::Replies;
use differential::entries::united::RowsUnited;
use differential::entries::unreliability::Unreliability;
use differential::entry::{Entry, Outcome, expected};
use differential::report::Report;
use differential::rng::Rng;

/// The lines of a file, those of them that are from the small space, the numbers of a line, and
/// the bytes of a file and of a block.
const LINES: u64 = 3000;
const SMALL: u64 = 600;
const NUMBERS: usize = 400;
const BYTES: usize = 880_000;
const BLOCK: usize = 65_536;
/// The bytes of a line from which on it is long, and how rare that is, or there would be too few
/// lines.
const LONG: usize = 800;
const RARE: u64 = 8;

/// A file of stored answers.
#[derive(Default)]
struct File {
    text: String,
    lines: u64,
    report: Report,
}

impl File {
    /// Adds a case, if it fits on a line and is no listed difference. Of long lines one is added
    /// where the lines so far are a multiple of `rare`.
    fn add<E: Entry>(&mut self, input: &E::Input, rare: u64) -> Result<(), String> {
        let (answer, outcomes) =
            expected::<E>(input).map_err(|why| format!("{}: {why}\n{input:?}", E::NAME))?;
        let line = E::line(input, &answer);
        let listed = outcomes.iter().any(|o| matches!(o, Outcome::Listed(_)));
        if listed || line.len() > NUMBERS || self.has_enough::<E>(&outcomes) {
            return Ok(());
        }
        let text = format!("{line}\n");
        if text.len() > LONG && !self.lines.is_multiple_of(rare) {
            return Ok(());
        }
        self.put(&text);
        self.report.add::<E>(input, &outcomes);
        Ok(())
    }

    /// Refusals are at most half of a file, and each number has its share of that.
    fn has_enough<E: Entry>(&self, outcomes: &[Outcome]) -> bool {
        match outcomes {
            [Outcome::Refused(number, _)] => {
                let taken: u64 = self.report.refused(*number).iter().sum();
                taken >= LINES / 2 / E::REFUSALS.len() as u64
            }
            _ => false,
        }
    }

    fn put(&mut self, line: &str) {
        let room = BLOCK - self.text.len() % BLOCK;
        if line.len() > room {
            self.text.extend(std::iter::repeat_n('\n', room));
        }
        self.text.push_str(line);
        self.lines += 1;
    }
}

/// The fixed cases, some of the small space at equal steps, and random ones.
fn store<E: Entry>(dir: &Path, seed: u64) -> Result<(), Box<dyn Error>> {
    let mut file = File::default();
    for input in E::fixed() {
        file.add::<E>(&input, 1)?;
    }
    let (mut all, mut at, mut result) = (0, 0, Ok(()));
    E::small(&mut |_| all += 1);
    E::small(&mut |input| {
        if at % (all / SMALL + 1) == 0 && result.is_ok() {
            result = file.add::<E>(&input, RARE);
        }
        at += 1;
    });
    result?;
    let mut rng = Rng::new(seed);
    while file.lines < LINES && file.text.len() < BYTES {
        file.add::<E>(&E::random(&mut rng), RARE)?;
    }
    let missing = file.report.missing::<E>(false);
    if !missing.is_empty() || file.lines < 2000 {
        return Err(format!("{}: {} lines, without {missing:?}", E::NAME, file.lines).into());
    }
    let [narrow, wide] = file.report.narrow_and_wide();
    if 3 * wide < narrow {
        return Err(format!("{}: {narrow} narrow lines, {wide} wide ones", E::NAME).into());
    }
    println!(
        "{}: {} lines, {} bytes",
        E::NAME,
        file.lines,
        file.text.len()
    );
    print!("{}", file.report);
    Ok(fs::write(dir.join(E::NAME), file.text)?)
}

fn main() -> Result<(), Box<dyn Error>> {
    let args: Vec<String> = env::args().skip(1).collect();
    let (dir, seed) = match &args[..] {
        [dir] => (Path::new(dir), 1),
        [dir, flag, seed] if flag == "--seed" => (Path::new(dir), seed.parse()?),
        _ => return Err("stored DIR [--seed S]".into()),
    };
    oracle::api::quiet();
    println!(
        "seed {seed}, oracle in debug {}",
        oracle::api::debug_build()
    );
    fs::create_dir_all(dir)?;
    store::<ProfileText>(dir, seed)?;
    store::<Unreliability>(dir, seed)?;
    store::<FaultList>(dir, seed)?;
    store::<Covers>(dir, seed)?;
    store::<RowsUnited>(dir, seed)?;
    store::<Survived>(dir, seed)?;
    store::<LayoutRows>(dir, seed)?;
    store::<LayoutCommits>(dir, seed)?;
    store::<Plan>(dir, seed)?;
    store::<FullCopies>(dir, seed)?;
    store::<Floor>(dir, seed)?;
    store::<PolicyRows>(dir, seed)?;
    store::<LayoutText>(dir, seed)?;
    store::<Gossip>(dir, seed)?;
    store::<Replies>(dir, seed)
}
