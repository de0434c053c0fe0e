//! Asks the original: a request a line on standard input, an answer a line on standard output.
//! README.md has the protocol.

mod answers;
mod commands;
mod words;

use std::io::{self, BufRead, Write};

use oracle::api;

fn main() -> io::Result<()> {
    api::quiet();
    let mut out = io::BufWriter::new(io::stdout().lock());
    let mut tally = None;
    for line in io::stdin().lock().lines() {
        let line = line?;
        let answer = commands::answer(&line, &mut tally);
        writeln!(out, "{}", answer.unwrap_or_else(|e| format!("bad {e}")))?;
        if line.is_empty() {
            out.flush()?;
        }
    }
    out.flush()
}
