//! The processor time of this thread, so that other work on the machine does not count.

use std::time::Duration;

/// The system's number of this clock on Linux.
const THREAD_CPU_TIME: i32 = 3;

#[repr(C)]
struct Time {
    seconds: i64,
    nanoseconds: i64,
}

extern "C" {
    fn clock_gettime(clock: i32, time: *mut Time) -> i32;
}

pub fn now() -> Duration {
    let mut time = Time { seconds: 0, nanoseconds: 0 };
    let failed = unsafe { clock_gettime(THREAD_CPU_TIME, &mut time) } != 0;
    assert!(!failed, "the system has no clock for one thread's time");
    Duration::new(time.seconds as u64, time.nanoseconds as u32)
}
