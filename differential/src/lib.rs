//! The port and the original Rust in one process, on the same inputs.
//!
//! An input goes three ways: to the port, to the Rust (the package `oracle`), and to `document`,
//! which says by document 01 alone whether the input is refused, and with which number. Where the
//! document refuses, the port must give that number and leave lent memory as it was. Where it does
//! not, the port must answer what the Rust answers, the differences of docs/DIFFERENCES.md apart:
//! each is recognised by a condition on the input, and then both answers must be the listed ones.
//! Overflows of the Rust's bytes are among them: there the port's answer is worked out anew in whole
//! numbers.
//!
//! `entry` has the comparison, `entries` the entries of the port, `parts` what their inputs share.
//! Without the feature `port` everything here is built without the port; the stored answers are
//! written so.

pub mod document;
pub mod entries;
pub mod entry;
pub mod line;
pub mod parts;
pub mod report;
pub mod rng;
