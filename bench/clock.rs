//! The time for which the program was on the processor. What else runs in the machine takes turns with it, and does not count.

use std::time::Duration;

// The system's struct and the number of its clock for the thread, on Linux.
#[repr(C)]
struct Timespec {
    seconds: i64,
    nanoseconds: i64,
}

const THREAD_CLOCK: i32 = 3;

unsafe extern "C" {
    fn clock_gettime(clock: i32, time: *mut Timespec) -> i32;
}

fn processor_time() -> Duration {
    let mut time = Timespec { seconds: 0, nanoseconds: 0 };
    // SAFETY: the struct is that of the call, which writes it and keeps no pointer to it.
    let told = unsafe { clock_gettime(THREAD_CLOCK, &mut time) };
    assert_eq!(told, 0, "no clock for the thread's time");
    Duration::new(time.seconds as u64, time.nanoseconds as u32)
}

/// For how long what is done was on the processor.
pub fn took(does: impl FnOnce()) -> Duration {
    let start = processor_time();
    does();
    processor_time() - start
}
