//! The processor time of this thread: what other programs of the machine take is not in it.
#![allow(unsafe_code)]
use std::time::Duration;

/// As the C library of 64-bit Linux has it.
#[repr(C)]
struct Time {
    seconds: i64,
    nanoseconds: i64,
}

const OF_THIS_THREAD: i32 = 3;

extern "C" {
    fn clock_gettime(clock: i32, time: *mut Time) -> i32;
}

pub fn now() -> Duration {
    let mut time = Time {
        seconds: 0,
        nanoseconds: 0,
    };
    // SAFETY: the function writes the two numbers of `time`, which is borrowed until it returns.
    let failed = unsafe { clock_gettime(OF_THIS_THREAD, &mut time) };
    assert_eq!(failed, 0, "no such clock");
    Duration::new(time.seconds as u64, time.nanoseconds as u32)
}
