//! What work costs in processor time, so that other work on the machine counts less.

use std::time::Duration;

pub fn timed(work: impl FnOnce()) -> Duration {
    let begin = processor_time();
    work();
    processor_time() - begin
}

/// What this process has had of the processor (Linux, 64 bits).
fn processor_time() -> Duration {
    #[repr(C)]
    struct Timespec {
        seconds: u64,
        nanoseconds: u64,
    }
    extern "C" {
        fn clock_gettime(clock: i32, time: *mut Timespec) -> i32;
    }
    const CLOCK_PROCESS_CPUTIME_ID: i32 = 2;
    let mut time = Timespec {
        seconds: 0,
        nanoseconds: 0,
    };
    let status = unsafe { clock_gettime(CLOCK_PROCESS_CPUTIME_ID, &raw mut time) };
    assert_eq!(status, 0, "the processor's time cannot be read");
    Duration::from_secs(time.seconds) + Duration::from_nanos(time.nanoseconds)
}
