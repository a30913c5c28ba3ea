//! The processor's time that this thread has had. The time in which the machine does other work does not count: it would
//! fall on long passes more than on short ones, and so on the slower engines.

use std::time::Duration;

#[repr(C)]
struct Timespec {
    seconds: i64,
    nanoseconds: i64,
}

/// CLOCK_THREAD_CPUTIME_ID of Linux.
const THREAD: i32 = 3;

extern "C" {
    fn clock_gettime(clock: i32, time: *mut Timespec) -> i32;
}

pub fn thread_time() -> Duration {
    let mut time = Timespec { seconds: 0, nanoseconds: 0 };
    // Safety: the pointer is to a record of the C library's form, which the call fills.
    let failed = unsafe { clock_gettime(THREAD, &mut time) };
    assert_eq!(failed, 0, "no clock for a thread");
    Duration::new(time.seconds as u64, time.nanoseconds as u32)
}
