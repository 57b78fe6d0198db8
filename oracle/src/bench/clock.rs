//! The clock of a thread.

use std::ffi::c_int;

#[repr(C)]
struct Moment {
    seconds: i64,
    nanoseconds: i64,
}

unsafe extern "C" {
    fn clock_gettime(clock: c_int, at: *mut Moment) -> c_int;
}

/// The nanoseconds that this thread has run.
pub fn ran() -> f64 {
    const THREAD_CPUTIME: c_int = 3;
    let mut at = Moment { seconds: 0, nanoseconds: 0 };
    // SAFETY: a `timespec` of Linux on 64 bits.
    assert_eq!(unsafe { clock_gettime(THREAD_CPUTIME, &mut at) }, 0, "the thread's clock");
    at.seconds as f64 * 1e9 + at.nanoseconds as f64
}
