//! The time that this thread has spent on a processor, so that other work on the machine is not
//! counted. Where there is no such clock, the time that has passed.

#![allow(unsafe_code)]

#[cfg(target_os = "linux")]
pub fn now() -> f64 {
    #[repr(C)]
    struct TimeSpec {
        seconds: i64,
        nanoseconds: i64,
    }

    unsafe extern "C" {
        fn clock_gettime(clock: i32, time: *mut TimeSpec) -> i32;
    }

    const THREAD_CPU_TIME: i32 = 3;
    let mut time = TimeSpec { seconds: 0, nanoseconds: 0 };
    // Safety: the clock writes into a place of its own layout (on 64-bit Linux) and nowhere else.
    let answer = unsafe { clock_gettime(THREAD_CPU_TIME, &mut time) };
    assert_eq!(answer, 0, "the clock of this thread");
    time.seconds as f64 * 1e9 + time.nanoseconds as f64
}

#[cfg(not(target_os = "linux"))]
pub fn now() -> f64 {
    use std::sync::OnceLock;
    use std::time::Instant;

    static BEGIN: OnceLock<Instant> = OnceLock::new();
    BEGIN.get_or_init(Instant::now).elapsed().as_nanos() as f64
}
