//! The clock of the measurements: the processor's time that this thread has had, so that what else runs on the machine
//! counts little.

use std::ffi::{c_int, c_long};

#[repr(C)]
struct Time {
    seconds: c_long,
    nanoseconds: c_long,
}

extern "C" {
    fn clock_gettime(clock: c_int, time: *mut Time) -> c_int;
}

/// The number that Linux has for the clock of the calling thread.
const OF_THIS_THREAD: c_int = 3;

/// Seconds since the thread began. Without such a clock nothing can be measured, and the program ends.
pub fn processor_seconds() -> f64 {
    let mut time = Time { seconds: 0, nanoseconds: 0 };
    // SAFETY: the pointer is to a time that the call may write.
    if unsafe { clock_gettime(OF_THIS_THREAD, &mut time) } != 0 {
        eprintln!("bench: the system has no clock of a thread's processor time");
        std::process::exit(1);
    }
    time.seconds as f64 + time.nanoseconds as f64 * 1e-9
}
