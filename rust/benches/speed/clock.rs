//! The processor's time for this thread: on a machine that is shared, the others' turns are not counted.

use std::time::Duration;

#[repr(C)]
struct Timespec {
    seconds: i64,
    nanos: i64,
}

extern "C" {
    fn clock_gettime(clock: i32, time: *mut Timespec) -> i32;
}

/// On Linux.
const THREAD_CPU_TIME: i32 = 3;

pub fn now() -> Duration {
    let mut time = Timespec { seconds: 0, nanos: 0 };
    // SAFETY: C's own call, on a structure of its layout.
    let status = unsafe { clock_gettime(THREAD_CPU_TIME, &mut time) };
    assert_eq!(status, 0, "no clock");
    Duration::new(time.seconds as u64, time.nanos as u32)
}
