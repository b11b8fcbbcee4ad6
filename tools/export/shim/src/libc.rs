//! What Rust's std has of a process, over Linux's C library alone.
#![allow(unsafe_code)]
use core::alloc::{GlobalAlloc, Layout};

// Linux numbers it so: a signal came.
const EINTR: i32 = 4;
// How malloc aligns what it gives on computers of 64 bits.
const ALIGNED: usize = 16;

#[link(name = "c")]
unsafe extern "C" {
    fn malloc(size: usize) -> *mut u8;
    fn realloc(place: *mut u8, size: usize) -> *mut u8;
    fn free(place: *mut u8);
    safe fn abort() -> !;
    safe fn __errno_location() -> *const i32;
}

/// Whether a signal has interrupted the last call.
pub fn is_interrupted() -> bool {
    // SAFETY: it is the place of this thread's number.
    unsafe { *__errno_location() == EINTR }
}

struct C;

#[global_allocator]
static ALLOCATOR: C = C;

// SAFETY: the C library's blocks are apart, and null says that there is none.
unsafe impl GlobalAlloc for C {
    unsafe fn alloc(&self, layout: Layout) -> *mut u8 {
        if layout.align() > ALIGNED { core::ptr::null_mut() } else { unsafe { malloc(layout.size()) } }
    }
    unsafe fn dealloc(&self, place: *mut u8, _: Layout) {
        unsafe { free(place) }
    }
    unsafe fn realloc(&self, place: *mut u8, _: Layout, size: usize) -> *mut u8 {
        unsafe { realloc(place, size) }
    }
}

#[panic_handler]
fn stop(_: &core::panic::PanicInfo) -> ! {
    abort()
}
