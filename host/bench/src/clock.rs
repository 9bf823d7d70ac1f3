//! The processor time of this thread, in which the time that other programs take up does not
//! count. This is the only module with `unsafe` in it.

use std::ffi::{c_int, c_long};

#[repr(C)]
struct Timespec {
    seconds: i64,
    nanoseconds: c_long,
}

extern "C" {
    fn clock_gettime(clock: c_int, time: *mut Timespec) -> c_int;
}

/// Linux's number of the clock that counts this thread's processor time.
const CLOCK_THREAD_CPUTIME_ID: c_int = 3;

/// The processor time so far, in nanoseconds.
pub fn now() -> f64 {
    let mut time = Timespec {
        seconds: 0,
        nanoseconds: 0,
    };
    // SAFETY: the call writes one timespec, of Linux's layout on 64 bits, to the place given.
    let result = unsafe { clock_gettime(CLOCK_THREAD_CPUTIME_ID, &mut time) };
    assert_eq!(result, 0, "the clock of the thread's processor time");
    time.seconds as f64 * 1e9 + time.nanoseconds as f64
}
