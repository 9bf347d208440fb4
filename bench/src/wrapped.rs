//! memcpy, memmove and memset with a count of calls by size. The linker puts these in place of the C library's (`--wrap`),
//! in this program and in the static library. Small copies, which a compiler writes out as moves, are not seen.
use std::sync::atomic::{AtomicU64, Ordering};

/// Sizes from here on are counted as this one.
const LARGEST: usize = 1 << 16;

type Calls = [AtomicU64; LARGEST + 1];

static COPIES: Calls = [const { AtomicU64::new(0) }; LARGEST + 1];
static FILLS: Calls = [const { AtomicU64::new(0) }; LARGEST + 1];

extern "C" {
    fn __real_memcpy(to: *mut u8, from: *const u8, size: usize) -> *mut u8;
    fn __real_memmove(to: *mut u8, from: *const u8, size: usize) -> *mut u8;
    fn __real_memset(to: *mut u8, byte: i32, size: usize) -> *mut u8;
}

#[no_mangle]
unsafe extern "C" fn __wrap_memcpy(to: *mut u8, from: *const u8, size: usize) -> *mut u8 {
    count(&COPIES, size);
    __real_memcpy(to, from, size)
}

#[no_mangle]
unsafe extern "C" fn __wrap_memmove(to: *mut u8, from: *const u8, size: usize) -> *mut u8 {
    count(&COPIES, size);
    __real_memmove(to, from, size)
}

#[no_mangle]
unsafe extern "C" fn __wrap_memset(to: *mut u8, byte: i32, size: usize) -> *mut u8 {
    count(&FILLS, size);
    __real_memset(to, byte, size)
}

fn count(calls: &Calls, size: usize) {
    calls[size.min(LARGEST)].fetch_add(1, Ordering::Relaxed);
}

/// Calls by size, of copies and of fills.
pub struct Counted {
    pub copies: Vec<u64>,
    pub fills: Vec<u64>,
}

/// What has been called so far.
pub fn so_far() -> Counted {
    let read = |calls: &Calls| calls.iter().map(|c| c.load(Ordering::Relaxed)).collect();
    Counted { copies: read(&COPIES), fills: read(&FILLS) }
}
