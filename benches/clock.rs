//! The time that a bench takes.

use std::time::Duration;

unsafe extern "C" {
    fn clock_gettime(clock: i32, time: &mut Timespec) -> i32;
}

#[repr(C)]
#[derive(Default)]
struct Timespec {
    seconds: i64,
    nanoseconds: i64,
}

/// The processor time that this thread has used, so that other work on the machine counts little.
pub fn used() -> Duration {
    const THREAD_CPUTIME: i32 = 3;
    let mut time = Timespec::default();
    assert_eq!(unsafe { clock_gettime(THREAD_CPUTIME, &mut time) }, 0);
    Duration::new(time.seconds as u64, time.nanoseconds as u32)
}
