//! The heap of a node: it asks for memory when it is made, and never again, so nothing is ever given back.
use core::alloc::{GlobalAlloc, Layout};
use core::cell::UnsafeCell;

/// How many bytes there are: a node takes 6,656, and a clock that is played has one entry a rate.
pub const SIZE: usize = 16 * 1024;

#[repr(align(8))]
struct Heap(UnsafeCell<([u8; SIZE], usize)>);

// SAFETY: there is one thread, and no interrupt allocates.
unsafe impl Sync for Heap {}

#[global_allocator]
static HEAP: Heap = Heap(UnsafeCell::new(([0; SIZE], 0)));

// SAFETY: each block is apart from those before it and aligned; null says that there is none.
unsafe impl GlobalAlloc for Heap {
    unsafe fn alloc(&self, layout: Layout) -> *mut u8 {
        // SAFETY: there is one thread.
        let (room, used) = unsafe { &mut *self.0.get() };
        let at = used.next_multiple_of(layout.align().max(8));
        if layout.align() > 8 || at + layout.size() > SIZE {
            return core::ptr::null_mut();
        }
        *used = at + layout.size();
        &raw mut room[at]
    }
    unsafe fn dealloc(&self, _: *mut u8, _: Layout) {}
}

/// How many bytes are used.
pub fn used() -> usize {
    // SAFETY: there is one thread.
    unsafe { (*HEAP.0.get()).1 }
}
