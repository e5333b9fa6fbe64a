//! Processor times.

use std::fs;
use std::io;
use std::time::Duration;

#[repr(C)]
struct TimeSpec {
    seconds: i64,
    nanoseconds: i64,
}

/// CLOCK_THREAD_CPUTIME_ID of Linux.
const THREAD_CPU_TIME: i32 = 3;

unsafe extern "C" {
    fn clock_gettime(clock: i32, time: *mut TimeSpec) -> i32;
}

/// The processor time that the calling thread has used.
pub fn time_of_this_thread() -> Duration {
    let mut time = TimeSpec {
        seconds: 0,
        nanoseconds: 0,
    };
    let status = unsafe { clock_gettime(THREAD_CPU_TIME, &mut time) };
    assert_eq!(status, 0, "every thread has a processor clock");
    Duration::new(time.seconds as u64, time.nanoseconds as u32)
}

/// The processor time of a process that runs, or has ended and was not waited for.
pub fn time_of_process(id: u32) -> io::Result<Duration> {
    let statistics = fs::read_to_string(format!("/proc/{id}/schedstat"))?;
    let nanoseconds = statistics
        .split_whitespace()
        .next()
        .and_then(|field| field.parse().ok())
        .ok_or_else(|| io::Error::other("no processor time in schedstat"))?;
    Ok(Duration::from_nanos(nanoseconds))
}
