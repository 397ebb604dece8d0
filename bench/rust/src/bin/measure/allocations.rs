//! Counts allocations, and the most memory that was had at once. The linker sends the calls of C's allocator here, from Rust's code and
//! from ours alike.

use std::ffi::{c_int, c_void};
use std::sync::atomic::{AtomicBool, AtomicI64, AtomicU64, Ordering::Relaxed};

static COUNT: AtomicU64 = AtomicU64::new(0);
/// Whether bytes are counted: not where calls are timed.
static WATCHED: AtomicBool = AtomicBool::new(false);
static BYTES: AtomicI64 = AtomicI64::new(0);
static MOST: AtomicI64 = AtomicI64::new(0);

unsafe extern "C" {
    fn __real_malloc(size: usize) -> *mut c_void;
    fn __real_calloc(count: usize, size: usize) -> *mut c_void;
    fn __real_realloc(block: *mut c_void, size: usize) -> *mut c_void;
    fn __real_posix_memalign(block: *mut *mut c_void, align: usize, size: usize) -> c_int;
    fn __real_free(block: *mut c_void);
    fn malloc_usable_size(block: *mut c_void) -> usize;
}

unsafe fn size_of_block(block: *mut c_void) -> i64 {
    if WATCHED.load(Relaxed) { unsafe { malloc_usable_size(block) as i64 } } else { 0 }
}

// A block came, in the place of so many bytes.
unsafe fn came(block: *mut c_void, before: i64) -> *mut c_void {
    COUNT.fetch_add(1, Relaxed);
    if WATCHED.load(Relaxed) {
        let change = unsafe { size_of_block(block) } - before;
        let bytes = BYTES.fetch_add(change, Relaxed) + change;
        MOST.fetch_max(bytes, Relaxed);
    }
    block
}

#[unsafe(no_mangle)]
unsafe extern "C" fn __wrap_malloc(size: usize) -> *mut c_void {
    unsafe { came(__real_malloc(size), 0) }
}

#[unsafe(no_mangle)]
unsafe extern "C" fn __wrap_calloc(count: usize, size: usize) -> *mut c_void {
    unsafe { came(__real_calloc(count, size), 0) }
}

#[unsafe(no_mangle)]
unsafe extern "C" fn __wrap_realloc(block: *mut c_void, size: usize) -> *mut c_void {
    unsafe {
        let before = size_of_block(block);
        came(__real_realloc(block, size), before)
    }
}

#[unsafe(no_mangle)]
unsafe extern "C" fn __wrap_posix_memalign(block: *mut *mut c_void, align: usize, size: usize) -> c_int {
    unsafe {
        let status = __real_posix_memalign(block, align, size);
        if status == 0 {
            came(*block, 0);
        }
        status
    }
}

#[unsafe(no_mangle)]
unsafe extern "C" fn __wrap_free(block: *mut c_void) {
    unsafe {
        BYTES.fetch_sub(size_of_block(block), Relaxed);
        __real_free(block);
    }
}

/// What a call took.
#[derive(Clone, Copy)]
pub struct Used {
    /// How many blocks were allocated, or allocated anew
    pub blocks: u64,
    /// The most bytes that it had at once
    pub bytes: i64,
}

/// What a call answers, and what it took.
pub fn during<T>(call: impl FnOnce() -> T) -> (T, Used) {
    let before = COUNT.load(Relaxed);
    BYTES.store(0, Relaxed);
    MOST.store(0, Relaxed);
    WATCHED.store(true, Relaxed);
    let answer = call();
    WATCHED.store(false, Relaxed);
    (answer, Used { blocks: COUNT.load(Relaxed) - before, bytes: MOST.load(Relaxed) })
}
