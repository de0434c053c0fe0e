//! The original Rust of summerset 536195dce6 as judge of the port. `build.rs` takes the text from
//! the original's sources; [`api`] is what a test calls.

/// The original's logging, silent here: its arguments are checked and not evaluated.
macro_rules! pf_trace {
    ($($arguments:tt)*) => {
        let _ = || format!($($arguments)*);
    };
}
macro_rules! pf_debug {
    ($($arguments:tt)*) => {
        let _ = || format!($($arguments)*);
    };
}

mod crossword;
mod server;
mod utils;

pub use crossword::api;
