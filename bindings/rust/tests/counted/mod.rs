//! The C library's malloc and its like for the library under test, with a count of what each thread has of them, and refused
//! on demand. What Rust itself takes goes past them, so that it isn't counted and never refused.

use std::alloc::{GlobalAlloc, Layout};
use std::cell::Cell;
use std::ffi::c_void;
use std::ptr;

// What stands behind malloc and its like in glibc.
extern "C" {
    fn __libc_malloc(size: usize) -> *mut c_void;
    fn __libc_calloc(count: usize, size: usize) -> *mut c_void;
    fn __libc_realloc(pointer: *mut c_void, size: usize) -> *mut c_void;
    fn __libc_free(pointer: *mut c_void);
    fn __libc_memalign(alignment: usize, size: usize) -> *mut c_void;
}

thread_local! {
    static HELD: Cell<i64> = const { Cell::new(0) };
    static GRANTED: Cell<u64> = const { Cell::new(u64::MAX) };
}

/// How many allocations this thread has made, and hasn't given back.
pub fn held() -> i64 {
    HELD.get()
}

/// Runs the call, and refuses all its allocations after the first `granted`. Says whether one was refused.
pub fn refused_after<T>(granted: u64, call: impl FnOnce() -> T) -> (T, bool) {
    GRANTED.set(granted + 1);
    let given = call();
    let was_refused = GRANTED.replace(u64::MAX) == 0;
    (given, was_refused)
}

// Whether this allocation is granted. The count stays at 1 where none is left, and at 0 once one was refused.
fn is_granted() -> bool {
    match GRANTED.get() {
        u64::MAX => true,
        0 | 1 => {
            GRANTED.set(0);
            false
        }
        left => {
            GRANTED.set(left - 1);
            true
        }
    }
}

fn counted(pointer: *mut c_void) -> *mut c_void {
    HELD.set(HELD.get() + i64::from(!pointer.is_null()));
    pointer
}

#[no_mangle]
extern "C" fn malloc(size: usize) -> *mut c_void {
    if !is_granted() {
        return ptr::null_mut();
    }
    // SAFETY: any size may be asked for.
    counted(unsafe { __libc_malloc(size) })
}

#[no_mangle]
extern "C" fn calloc(count: usize, size: usize) -> *mut c_void {
    if !is_granted() {
        return ptr::null_mut();
    }
    // SAFETY: any size may be asked for.
    counted(unsafe { __libc_calloc(count, size) })
}

#[no_mangle]
unsafe extern "C" fn realloc(pointer: *mut c_void, size: usize) -> *mut c_void {
    if !is_granted() {
        return ptr::null_mut();
    }
    // SAFETY: the caller keeps what realloc wants.
    let moved = unsafe { __libc_realloc(pointer, size) };
    if pointer.is_null() {
        counted(moved)
    } else {
        moved
    }
}

#[no_mangle]
unsafe extern "C" fn free(pointer: *mut c_void) {
    HELD.set(HELD.get() - i64::from(!pointer.is_null()));
    // SAFETY: the caller keeps what free wants.
    unsafe { __libc_free(pointer) }
}

/// Where Rust's own values lie.
pub struct Aside;

// SAFETY: glibc gives places of the size and the alignment that are asked for, and takes them back.
unsafe impl GlobalAlloc for Aside {
    unsafe fn alloc(&self, layout: Layout) -> *mut u8 {
        // SAFETY: a layout's alignment is a power of two.
        unsafe { __libc_memalign(layout.align(), layout.size()).cast() }
    }

    unsafe fn dealloc(&self, pointer: *mut u8, _: Layout) {
        // SAFETY: the pointer is one of `alloc`.
        unsafe { __libc_free(pointer.cast()) }
    }
}
