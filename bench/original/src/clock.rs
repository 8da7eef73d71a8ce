//! The clock of a thread's processor time, on Linux.

use std::time::Duration;

#[repr(C)]
struct TimeOfClock {
    seconds: i64,
    nanoseconds: i64,
}

extern "C" {
    fn clock_gettime(clock: i32, time: *mut TimeOfClock) -> i32;
}

/// The number of the clock of a thread's processor time on Linux.
const THREAD_CLOCK: i32 = 3;

/// Returns the processor time of this thread, which other work on the machine lengthens less than the time that passes.
pub fn processor_time() -> Duration {
    let mut time = TimeOfClock { seconds: 0, nanoseconds: 0 };
    // Sound: the call writes into the value that it is given, whose layout is that of 64-bit Linux.
    let status = unsafe { clock_gettime(THREAD_CLOCK, &mut time) };
    assert_eq!(status, 0, "the clock of processor time is missing");
    Duration::new(time.seconds as u64, time.nanoseconds as u32)
}
