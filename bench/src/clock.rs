//! The thread's processor time, so that other work on the machine does not count.

#[repr(C)]
struct Timespec {
    seconds: i64,
    nanoseconds: i64,
}

const THREAD_TIME: i32 = 3;
const MMAP_MAX: i32 = -4;
const TRIM_THRESHOLD: i32 = -1;
const TOP_PAD: i32 = -2;
const MMAP_THRESHOLD: i32 = -3;
const LARGE: i32 = 128 << 10;

extern "C" {
    fn clock_gettime(clock: i32, at: *mut Timespec) -> i32;
    fn mallopt(parameter: i32, value: i32) -> i32;
}

/// Nanoseconds of this thread.
pub fn now() -> u64 {
    let mut at = Timespec {
        seconds: 0,
        nanoseconds: 0,
    };
    unsafe { clock_gettime(THREAD_TIME, &mut at) };
    at.seconds as u64 * 1_000_000_000 + at.nanoseconds as u64
}

/// Memory that was freed is used again, and not given back to the system: what is timed is not a page fault.
pub fn keep_memory() {
    unsafe {
        mallopt(MMAP_MAX, 0);
        mallopt(TRIM_THRESHOLD, i32::MAX);
        mallopt(TOP_PAD, 256 << 20);
    }
}

/// Makes malloc map each block of 128 KiB or more anew.
pub fn map_anew() {
    unsafe {
        mallopt(MMAP_THRESHOLD, LARGE);
        mallopt(TRIM_THRESHOLD, LARGE);
    }
}
