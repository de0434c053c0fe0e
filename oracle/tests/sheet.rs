//! The program answers the requests of sheet.req as sheet.txt says.
//!
//! sheet.txt has each request in a readable form (a text is `@` and its characters, to the end of
//! the line) and below it, indented, the answer; an indented line `debug: ..` is the answer of a
//! debug build where that differs. Lines that begin with `#` say what document 01 says.

use std::fmt::Write as _;
use std::fs::File;
use std::process::Command;

use oracle::api;

struct Entry {
    request: String,
    answer: String,
}

/// The request as the program takes it: the text after ` @` in hexadecimal.
fn encode(line: &str) -> String {
    let Some((head, text)) = line.split_once(" @") else {
        return line.to_string();
    };
    let mut request = format!("{head} ");
    for byte in text.bytes() {
        write!(request, "{byte:02x}").unwrap();
    }
    request
}

fn entries(sheet: &str) -> Vec<Entry> {
    let mut entries: Vec<Entry> = vec![];
    for line in sheet.lines().filter(|line| !line.starts_with('#')) {
        match line.strip_prefix("    ") {
            None if line.is_empty() => {}
            None => entries.push(Entry {
                request: encode(line),
                answer: String::new(),
            }),
            Some(answer) => {
                let entry = entries.last_mut().unwrap();
                match answer.strip_prefix("debug: ") {
                    None => entry.answer = answer.to_string(),
                    Some(debug) if api::debug_build() => entry.answer = debug.to_string(),
                    Some(_) => {}
                }
            }
        }
    }
    entries
}

#[test]
fn sheet() {
    let folder = concat!(env!("CARGO_MANIFEST_DIR"), "/tests");
    let entries = entries(include_str!("sheet.txt"));
    let requests: Vec<&str> = entries.iter().map(|e| e.request.as_str()).collect();
    let listed: Vec<&str> = include_str!("sheet.req").lines().collect();
    assert_eq!(listed, requests, "sheet.req and sheet.txt differ");

    let output = Command::new(env!("CARGO_BIN_EXE_oracle"))
        .stdin(File::open(format!("{folder}/sheet.req")).unwrap())
        .output()
        .unwrap();
    let answers = String::from_utf8(output.stdout).unwrap();
    assert_eq!(answers.lines().count(), entries.len());
    for (entry, answer) in entries.iter().zip(answers.lines()) {
        assert_eq!(answer, entry.answer, "{}", entry.request);
    }
}
