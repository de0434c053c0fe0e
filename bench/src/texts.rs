//! The two texts: short ones, and ones as long as the port takes them.

use std::hint::black_box;

use oracle::api;

use callboard::Row;

use crate::inputs::{EMPTY, NARROW, WIDE, port_profile, width_note};
use crate::timing::{Case, Sides};

/// The most bytes that a profile's text may have, and a layout text.
const LONGEST: usize = 4096;
const LONGEST_LAYOUT: usize = 16_384;
/// A decimal of as many digits as are allowed.
const DECIMAL: &str = "0.12345678901234";

pub fn cases() -> Vec<Case> {
    let probs = "probs:0.01,0.02,0.01,0.02,0.05@1e-4";
    vec![
        profile(5, "empty", String::new()).beside("the answer is a cleared struct of 680 bytes"),
        profile(5, "probabilities", probs.into()),
        profile(5, "all", format!("domains:0,1/2,3;runtime;{probs}")),
        profile(16, "decimals", many_decimals()),
        profile(16, "domains", many_domains()),
        profile(16, "mechanisms", many_mechanisms()),
        init(5, 12, 20, "empty", String::new()),
        init(5, 153, WIDE, "empty", String::new()),
        init(5, 12, 20, "a number", "6".into()),
        init(5, 153, WIDE, "a number", "51".into()),
        init(5, 12, 20, "segments", "0:0,1/1:2,3/2:4,5/4:6,7".into()),
        init(
            5,
            153,
            WIDE,
            "segments",
            "0:0,1/1:64,65/2:250,251/4:6,7".into(),
        ),
        init(16, 32, 64, "segments", many_segments(16, NARROW, LONGEST)),
        init(
            15,
            128,
            WIDE,
            "segments",
            many_segments(15, WIDE, LONGEST_LAYOUT),
        ),
        init(16, 32, 64, "a number", format!("{:0>LONGEST$}", 7)),
        init(
            15,
            128,
            WIDE,
            "a number",
            format!("{:0>LONGEST_LAYOUT$}", 17),
        ),
    ]
}

fn profile(n: u8, note: &str, text: String) -> Case {
    let name = format!("parse_profile, {} bytes, {note}", text.len());
    Case::new(name, move || parse_profile(n, text))
}

fn init(n: u8, d: u8, total: u8, note: &str, text: String) -> Case {
    let (wide, bytes) = (width_note(total), text.len());
    let name = format!("parse_init_assignment{wide}, {bytes} bytes, {note}");
    Case::new(name, move || parse_init_assignment(n, d, total, text))
}

/// Lists of 16 decimals, of which the last counts.
fn many_decimals() -> String {
    let list = format!("probs:{}@1e-3;", [DECIMAL; 16].join(","));
    let text = list.repeat(LONGEST / list.len());
    format!("{text:LONGEST$}")
}

/// As many domains as are allowed.
fn many_domains() -> String {
    let domains = ["0, 1, 2, 3, 4, 5, 6, 7, 8, 9, 10, 11, 12, 13, 14 "; 64];
    let text = format!("domains:{}", domains.join("/"));
    format!("{text:LONGEST$}")
}

fn many_mechanisms() -> String {
    "runtime ; none;\t;runtime:of 30s;".repeat(LONGEST / 32)
}

/// All the shards below w for each of n replicas in turn, as far as the text goes.
fn many_segments(n: u8, w: u8, longest: usize) -> String {
    let shards: Vec<_> = (0..w).map(|shard| shard.to_string()).collect();
    let segments: Vec<_> = (0..n)
        .map(|r| format!("{r}:{}", shards.join(",")))
        .collect();
    let mut text = [segments.join("/"), segments.join("/")].join("/");
    text.truncate(longest);
    text
}

fn parse_profile(n: u8, text: String) -> Sides {
    let judged = api::parse_profile(n, &text).unwrap();
    let bytes = text.clone().into_bytes();
    let ask = move || callboard::parse_profile(n.into(), black_box(&bytes));
    assert_eq!(ask(), Ok(port_profile(&judged)));
    Sides::new(
        move || api::run_profile(n, black_box(&text)),
        // not handed on: a copy of the profile would be timed too
        move || black_box(&ask()).is_ok(),
    )
}

fn parse_init_assignment(n: u8, d: u8, total: u8, text: String) -> Sides {
    let judged = api::parse_init_assignment(n, total, d, &text).unwrap();
    let bytes = text.clone().into_bytes();
    let ask = move |rows: &mut [Row]| {
        let text = black_box(&bytes);
        callboard::parse_init_assignment(n.into(), d.into(), total.into(), text, rows).unwrap();
    };
    let mut rows = vec![EMPTY; n.into()];
    ask(&mut rows);
    assert_eq!(rows, judged);
    Sides::new(
        move || api::run_init(n, total, d, black_box(&text)),
        move || ask(black_box(&mut rows)),
    )
}
