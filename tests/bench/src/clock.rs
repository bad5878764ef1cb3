//! The processor time of this thread, which leaves out the time in which other programs run.

use std::time::Duration;

/// C's timespec on 64-bit Linux.
#[repr(C)]
struct Timespec {
    seconds: i64,
    nanoseconds: i64,
}

extern "C" {
    fn clock_gettime(clock: i32, time: *mut Timespec) -> i32;
}

/// CLOCK_THREAD_CPUTIME_ID of Linux.
const THREAD_TIME: i32 = 3;

/// The processor time that this thread has used.
pub fn thread_time() -> Duration {
    let mut time = Timespec {
        seconds: 0,
        nanoseconds: 0,
    };
    // SAFETY: the time lives here and has the form that the C library writes.
    let done = unsafe { clock_gettime(THREAD_TIME, &mut time) };
    assert_eq!(done, 0, "the clock can be read");
    Duration::new(time.seconds as u64, time.nanoseconds as u32)
}
