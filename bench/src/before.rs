//! The port as it was before: the archive of the folder CALLBOARD_BEFORE, if the bench was built
//! with one (build.rs). Every call of the C interface then takes a jump to the one or the other.

use std::sync::atomic::{AtomicBool, Ordering::Relaxed};

/// Whether there is an archive before.
pub const IS_THERE: bool = cfg!(before);

/// Whether a call goes to the archive before.
static ASKED: AtomicBool = AtomicBool::new(false);

/// Whether a function was called that the archive before lacks.
static LACKING: AtomicBool = AtomicBool::new(false);

#[cfg(before)]
include!(concat!(env!("OUT_DIR"), "/jumps.rs"));

/// What the call gives where the calls of the port in it go to the archive before.
pub fn ask<T>(call: impl FnOnce() -> T) -> T {
    ASKED.store(true, Relaxed);
    let given = call();
    ASKED.store(false, Relaxed);
    given
}

/// Whether the archive before has all that the call calls.
pub fn answers(call: impl FnOnce()) -> bool {
    LACKING.store(false, Relaxed);
    ask(call);
    !LACKING.load(Relaxed)
}
