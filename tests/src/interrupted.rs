//! The C functions `read` and `write` as a busy system has them: every other call is interrupted by a signal, and the others do a few bytes at
//! most. A library of its own, which tests/run builds, and which takes the place of the C library's functions where LD_PRELOAD names it.

use std::sync::atomic::{AtomicUsize, Ordering};

unsafe extern "C" {
    fn syscall(number: i64, ...) -> i64;
    fn __errno_location() -> *mut i32;
}

const EINTR: i32 = 4;

#[cfg(target_arch = "x86_64")]
const CALLS: (i64, i64) = (0, 1);
#[cfg(target_arch = "aarch64")]
const CALLS: (i64, i64) = (63, 64);

/// How many calls there were.
static TURNS: AtomicUsize = AtomicUsize::new(0);

/// How many bytes the next call does; or none, where it is interrupted.
fn next(count: usize) -> Option<usize> {
    let turn = TURNS.fetch_add(1, Ordering::Relaxed);
    if turn % 2 == 0 {
        // SAFETY: the C library's own place for this thread's error.
        unsafe { *__errno_location() = EINTR };
        return None;
    }
    Some(count.min(1 + turn % 7))
}

/// As read(2).
///
/// # Safety
///
/// The buffer has room for so many bytes.
#[unsafe(no_mangle)]
pub unsafe extern "C" fn read(file: i32, buffer: *mut u8, count: usize) -> isize {
    // SAFETY: the caller's buffer and no more of it than it says.
    next(count).map_or(-1, |some| unsafe { syscall(CALLS.0, file, buffer, some) as isize })
}

/// As write(2).
///
/// # Safety
///
/// The buffer holds so many bytes.
#[unsafe(no_mangle)]
pub unsafe extern "C" fn write(file: i32, buffer: *const u8, count: usize) -> isize {
    // SAFETY: the caller's buffer and no more of it than it says.
    next(count).map_or(-1, |some| unsafe { syscall(CALLS.1, file, buffer, some) as isize })
}
