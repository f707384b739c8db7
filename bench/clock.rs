//! The thread's own processor time: what other programs on the machine take is not counted.
use std::ffi::{c_int, c_long};

#[repr(C)]
struct Timespec {
    seconds: i64,
    nanoseconds: c_long,
}

extern "C" {
    fn clock_gettime(clock: c_int, time: *mut Timespec) -> c_int;
}

/// `CLOCK_THREAD_CPUTIME_ID` of Linux.
const THREAD_TIME: c_int = 3;

/// Nanoseconds that this thread has run.
pub fn nanoseconds() -> u64 {
    let mut time = Timespec { seconds: 0, nanoseconds: 0 };
    assert_eq!(unsafe { clock_gettime(THREAD_TIME, &mut time) }, 0, "no clock");
    time.seconds as u64 * 1_000_000_000 + time.nanoseconds as u64
}
