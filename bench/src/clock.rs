//! The processor time of this thread, which other programs on the machine do not lengthen as they do the time of day.

#[repr(C)]
struct Time {
    seconds: i64,
    nanoseconds: i64,
}

extern "C" {
    fn clock_gettime(clock: i32, time: *mut Time) -> i32;
}

/// Linux's number of the clock.
const THREAD_CPUTIME: i32 = 3;

pub fn seconds() -> f64 {
    let mut time = Time { seconds: 0, nanoseconds: 0 };
    // Safety: the call writes one such struct (x86-64 Linux), which is this one.
    let done = unsafe { clock_gettime(THREAD_CPUTIME, &mut time) };
    assert_eq!(done, 0);
    time.seconds as f64 + time.nanoseconds as f64 * 1e-9
}
