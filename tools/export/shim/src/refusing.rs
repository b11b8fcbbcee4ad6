//! For tests: an allocator that refuses requests of this thread.
#![allow(unsafe_code)]
use core::alloc::{GlobalAlloc, Layout};
use core::cell::Cell;
use core::fmt::Debug;
use rust_std::alloc::System;
use rust_std::thread_local;

thread_local! {
    // How many requests are granted before all are refused, if they are counted.
    static GRANTED: Cell<Option<usize>> = const { Cell::new(None) };
}

struct Refusing;

#[global_allocator]
static ALLOCATOR: Refusing = Refusing;

fn is_refused() -> bool {
    GRANTED.with(|granted| match granted.get() {
        None => false,
        Some(0) => true,
        Some(count) => {
            granted.set(Some(count - 1));
            false
        }
    })
}

// SAFETY: what is granted is the system's, and null is the answer of an allocator that has nothing.
unsafe impl GlobalAlloc for Refusing {
    unsafe fn alloc(&self, layout: Layout) -> *mut u8 {
        if is_refused() { core::ptr::null_mut() } else { unsafe { System.alloc(layout) } }
    }
    unsafe fn dealloc(&self, place: *mut u8, layout: Layout) {
        unsafe { System.dealloc(place, layout) }
    }
    unsafe fn realloc(&self, place: *mut u8, layout: Layout, size: usize) -> *mut u8 {
        if is_refused() { core::ptr::null_mut() } else { unsafe { System.realloc(place, layout, size) } }
    }
}

/// The call, with all requests refused after that many.
pub fn refused_after<R>(granted: usize, call: impl FnOnce() -> R) -> R {
    GRANTED.with(|left| left.set(Some(granted)));
    let result = call();
    GRANTED.with(|left| left.set(None));
    result
}

/// The call, with all requests refused.
pub fn without_memory<R>(call: impl FnOnce() -> R) -> R {
    refused_after(0, call)
}

/// Makes a value and runs the call on it, with all requests refused after the first 0, 1, 2 and so on: as long as one is refused, the
/// call has to fail and to leave what `seen` shows. Returns how many requests it makes, and what it gives once all are granted.
pub fn each_refusal<T, S: PartialEq + Debug, R, E>(
    make: impl Fn() -> T,
    seen: impl Fn(&T) -> S,
    mut call: impl FnMut(&mut T) -> Result<R, E>,
) -> (usize, T, R) {
    let mut granted = 0;
    loop {
        let mut value = make();
        let before = seen(&value);
        match refused_after(granted, || call(&mut value)) {
            Ok(result) => return (granted, value, result),
            Err(_) => assert_eq!(seen(&value), before, "changed without request {granted}"),
        }
        granted += 1;
    }
}
