//! CPU time of this thread.

use std::ffi::{c_int, c_long};

const CLOCK_THREAD_CPUTIME_ID: c_int = 3;

#[repr(C)]
struct Time {
    seconds: c_long,
    nanoseconds: c_long,
}

extern "C" {
    fn clock_gettime(clock: c_int, time: *mut Time) -> c_int;
}

/// Nanoseconds of CPU time that something takes.
pub fn nanoseconds(run: impl FnOnce()) -> f64 {
    let before = now();
    run();
    now() - before
}

fn now() -> f64 {
    let mut time = Time {
        seconds: 0,
        nanoseconds: 0,
    };
    // SAFETY: the clock is written into `time`.
    let result = unsafe { clock_gettime(CLOCK_THREAD_CPUTIME_ID, &mut time) };
    assert_eq!(result, 0, "the clock is there");
    time.seconds as f64 * 1e9 + time.nanoseconds as f64
}
