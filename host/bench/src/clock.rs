//! The thread's processor time, which other work on the machine does not count in.

use std::time::Duration;

const CLOCK_THREAD_CPUTIME_ID: i32 = 3;

unsafe extern "C" {
    fn clock_gettime(clock: i32, time: *mut [i64; 2]) -> i32;
}

pub fn now() -> Duration {
    let mut time = [0; 2];
    // SAFETY: a timespec of 64-bit Linux is two 64-bit numbers.
    assert_eq!(unsafe { clock_gettime(CLOCK_THREAD_CPUTIME_ID, &mut time) }, 0);
    Duration::new(time[0] as u64, time[1] as u32)
}
