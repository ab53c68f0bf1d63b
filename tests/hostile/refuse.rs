//! Stands before the C library in a program that was linked dynamically, by `LD_PRELOAD`, and refuses some of its
//! requests. Those of each kind are counted from 1, threads together. These variables have the number of the one that
//! is refused; all others go on to the system:
//!
//!     REFUSED_REQUEST    a request for memory
//!     REFUSED_FROM       a request for memory, and all those behind it too
//!     REFUSED_READ       a read, which fails
//!     REFUSED_WRITE      a write, which fails
//!
//! At a refusal it writes a line to file descriptor 9: `refused`, and for a read or a write `refused` and the number of
//! the descriptor that was read or written. So nothing stands there exactly where a run met no refusal.
#![no_std]

use core::ffi::{c_char, c_int, c_long, c_ulong, c_void, CStr};
use core::ptr::null_mut;
use core::sync::atomic::{AtomicU64, Ordering::SeqCst};

unsafe extern "C" {
    fn __libc_malloc(size: usize) -> *mut c_void;
    fn __libc_calloc(count: usize, size: usize) -> *mut c_void;
    fn __libc_realloc(block: *mut c_void, size: usize) -> *mut c_void;
    fn __errno_location() -> *mut c_int;
    fn getenv(name: *const c_char) -> *const c_char;
    fn strtoul(text: *const c_char, end: *mut *mut c_char, base: c_int) -> c_ulong;
    fn syscall(number: c_long, ...) -> c_long;
}

const READ: c_long = 0;
const WRITE: c_long = 1;
const EIO: c_int = 5;
const ENOMEM: c_int = 12;

static REQUESTS: AtomicU64 = AtomicU64::new(0);
static READS: AtomicU64 = AtomicU64::new(0);
static WRITES: AtomicU64 = AtomicU64::new(0);

/// The number that the variable has; 0 where there is none.
fn number_in(variable: &CStr) -> u64 {
    unsafe {
        let text = getenv(variable.as_ptr());
        if text.is_null() { 0 } else { strtoul(text, null_mut(), 10) }
    }
}

/// Writes the line to descriptor 9, and leaves the error of the refused request.
fn tell(line: &[u8], error: c_int) {
    unsafe {
        syscall(WRITE, 9 as c_int, line.as_ptr(), line.len());
        *__errno_location() = error;
    }
}

/// Counts a request for memory, and tells whether it is refused.
fn is_refused() -> bool {
    let number = REQUESTS.fetch_add(1, SeqCst) + 1;
    let from = number_in(c"REFUSED_FROM");
    let refused = number == number_in(c"REFUSED_REQUEST") || (from != 0 && from <= number);
    if refused {
        tell(b"refused\n", ENOMEM);
    }
    refused
}

#[unsafe(no_mangle)]
extern "C" fn malloc(size: usize) -> *mut c_void {
    if is_refused() { null_mut() } else { unsafe { __libc_malloc(size) } }
}

#[unsafe(no_mangle)]
extern "C" fn calloc(count: usize, size: usize) -> *mut c_void {
    if is_refused() { null_mut() } else { unsafe { __libc_calloc(count, size) } }
}

#[unsafe(no_mangle)]
extern "C" fn realloc(block: *mut c_void, size: usize) -> *mut c_void {
    if is_refused() { null_mut() } else { unsafe { __libc_realloc(block, size) } }
}

/// Tells that a read or a write of this descriptor, which is below 10, is refused. It is one that fails.
fn fail(file: c_int) -> isize {
    tell(&[b'r', b'e', b'f', b'u', b's', b'e', b'd', b' ', b'0' + file as u8, b'\n'], EIO);
    -1
}

#[unsafe(no_mangle)]
extern "C" fn read(file: c_int, bytes: *mut c_void, count: usize) -> isize {
    if READS.fetch_add(1, SeqCst) + 1 == number_in(c"REFUSED_READ") {
        return fail(file);
    }
    unsafe { syscall(READ, file, bytes, count) as isize }
}

#[unsafe(no_mangle)]
extern "C" fn write(file: c_int, bytes: *const c_void, count: usize) -> isize {
    if WRITES.fetch_add(1, SeqCst) + 1 == number_in(c"REFUSED_WRITE") {
        return fail(file);
    }
    unsafe { syscall(WRITE, file, bytes, count) as isize }
}

/// The C library has this second name for it.
#[unsafe(no_mangle)]
extern "C" fn __write(file: c_int, bytes: *const c_void, count: usize) -> isize {
    write(file, bytes, count)
}

#[panic_handler]
fn stop(_: &core::panic::PanicInfo) -> ! {
    loop {}
}
