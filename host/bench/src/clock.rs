//! The time that this thread has had of a processor. Other processes' turns do not count, so that a busy machine
//! disturbs a measurement less.

#[repr(C)]
struct Timespec {
    seconds: i64,
    nanoseconds: i64,
}

unsafe extern "C" {
    fn clock_gettime(clock: i32, time: *mut Timespec) -> i32;
}

const THREAD_CPUTIME: i32 = 3;

/// Seconds.
pub fn now() -> f64 {
    let mut time = Timespec { seconds: 0, nanoseconds: 0 };
    let failed = unsafe { clock_gettime(THREAD_CPUTIME, &mut time) };
    assert_eq!(failed, 0, "this system has no clock for a thread's time");
    time.seconds as f64 + time.nanoseconds as f64 * 1e-9
}
