//! Counts what malloc has lent, for the library and for Rust alike.
use std::ffi::c_void;
use std::sync::atomic::{AtomicBool, AtomicI64, AtomicU64, Ordering::Relaxed};

static COUNTS: AtomicBool = AtomicBool::new(false);
static HELD: AtomicI64 = AtomicI64::new(0);
static MOST: AtomicI64 = AtomicI64::new(0);
static REQUESTS: AtomicU64 = AtomicU64::new(0);

extern "C" {
    fn __real_malloc(size: usize) -> *mut c_void;
    fn __real_calloc(count: usize, size: usize) -> *mut c_void;
    fn __real_realloc(at: *mut c_void, size: usize) -> *mut c_void;
    fn __real_free(at: *mut c_void);
    fn malloc_usable_size(at: *mut c_void) -> usize;
}

/// Holds what a call took of malloc.
#[derive(Clone, Copy, Debug, Default)]
pub struct Taken {
    /// Counts the most bytes that it held beyond those held before.
    pub most_bytes: u64,
    /// Counts how often it asked for memory.
    pub requests: u64,
}

/// Returns what a call answers, and what it took.
pub fn counted<R>(call: impl FnOnce() -> R) -> (R, Taken) {
    HELD.store(0, Relaxed);
    MOST.store(0, Relaxed);
    REQUESTS.store(0, Relaxed);
    COUNTS.store(true, Relaxed);
    let answer = call();
    COUNTS.store(false, Relaxed);
    let taken = Taken {
        most_bytes: MOST.load(Relaxed) as u64,
        requests: REQUESTS.load(Relaxed),
    };
    (answer, taken)
}

unsafe fn lent(at: *mut c_void) -> *mut c_void {
    if COUNTS.load(Relaxed) {
        let bytes = malloc_usable_size(at) as i64;
        let held = HELD.fetch_add(bytes, Relaxed) + bytes;
        MOST.fetch_max(held, Relaxed);
        REQUESTS.fetch_add(1, Relaxed);
    }
    at
}

unsafe fn returned(at: *mut c_void) {
    if COUNTS.load(Relaxed) {
        HELD.fetch_sub(malloc_usable_size(at) as i64, Relaxed);
    }
}

/// # Safety
/// As malloc.
#[no_mangle]
pub unsafe extern "C" fn __wrap_malloc(size: usize) -> *mut c_void {
    lent(__real_malloc(size))
}

/// # Safety
/// As calloc.
#[no_mangle]
pub unsafe extern "C" fn __wrap_calloc(count: usize, size: usize) -> *mut c_void {
    lent(__real_calloc(count, size))
}

/// # Safety
/// As realloc.
#[no_mangle]
pub unsafe extern "C" fn __wrap_realloc(at: *mut c_void, size: usize) -> *mut c_void {
    returned(at);
    lent(__real_realloc(at, size))
}

/// # Safety
/// As free.
#[no_mangle]
pub unsafe extern "C" fn __wrap_free(at: *mut c_void) {
    returned(at);
    __real_free(at)
}
