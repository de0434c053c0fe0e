//! The time that this thread has run. On a shared machine the time of day also has the turns of
//! others in it, and so would favour whichever side has the shorter samples.

use std::mem::MaybeUninit;
use std::time::Duration;

/// Linux's number of the clock, and its answer, on x86-64.
const CLOCK_THREAD_CPUTIME_ID: i32 = 3;

#[repr(C)]
struct Timespec {
    seconds: i64,
    nanos: i64,
}

unsafe extern "C" {
    fn clock_gettime(clock: i32, time: *mut Timespec) -> i32;
}

pub fn now() -> Duration {
    let mut time = MaybeUninit::<Timespec>::uninit();
    // SAFETY: it is lent for the call, and filled in if that answers 0.
    let time = unsafe {
        assert_eq!(clock_gettime(CLOCK_THREAD_CPUTIME_ID, time.as_mut_ptr()), 0);
        time.assume_init()
    };
    Duration::new(time.seconds as u64, time.nanos as u32)
}
