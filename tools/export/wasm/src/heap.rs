//! The memory of the module: blocks whose sizes are powers of two, over memory that only grows.
use alloc::alloc::{GlobalAlloc, Layout};
use core::cell::UnsafeCell;

// The bytes of a page of WebAssembly, and how many pages are asked for at least.
const PAGE: usize = 65_536;
const PAGES: usize = 16;
// Blocks have 16 bytes at least, and 1 GiB at most.
const LEAST: usize = 16;
const MOST: usize = 1 << 30;

struct State {
    // Of each power of two the first free block, which has the address of the next in its first bytes; 0 is none.
    free: [usize; 32],
    // What has not been a block yet.
    from: usize,
    to: usize,
}

/// The allocator. A module has one thread.
pub struct Heap(UnsafeCell<State>);

// SAFETY: a module has one thread.
unsafe impl Sync for Heap {}

/// The power of two of the blocks for a layout.
fn class(layout: Layout) -> usize {
    layout.size().max(layout.align()).max(LEAST).next_power_of_two().trailing_zeros() as usize
}

impl State {
    /// A block of that power of two, or 0 where the host gives no more memory.
    fn block(&mut self, class: usize) -> usize {
        let size = 1 << class;
        if self.to - self.from < size && !self.grow(size) {
            return 0;
        }
        let block = self.from.next_multiple_of(LEAST);
        self.from = block + size;
        block
    }

    fn grow(&mut self, size: usize) -> bool {
        let pages = size.div_ceil(PAGE).max(PAGES);
        let old = core::arch::wasm32::memory_grow(0, pages);
        if old == usize::MAX {
            return false;
        }
        if old * PAGE != self.to {
            self.from = old * PAGE;
        }
        self.to = (old + pages) * PAGE;
        true
    }
}

impl Heap {
    /// One without any memory.
    pub const fn new() -> Heap {
        Heap(UnsafeCell::new(State { free: [0; 32], from: 0, to: 0 }))
    }
}

// SAFETY: a block is handed out once until it is freed, is aligned as its size, which is at least the layout's, and stays where it is.
unsafe impl GlobalAlloc for Heap {
    unsafe fn alloc(&self, layout: Layout) -> *mut u8 {
        if layout.size() > MOST || layout.align() > LEAST {
            return core::ptr::null_mut();
        }
        unsafe {
            let state = &mut *self.0.get();
            let class = class(layout);
            match state.free[class] {
                0 => state.block(class) as *mut u8,
                block => {
                    state.free[class] = *(block as *const usize);
                    block as *mut u8
                }
            }
        }
    }

    unsafe fn dealloc(&self, place: *mut u8, layout: Layout) {
        unsafe {
            let state = &mut *self.0.get();
            *place.cast::<usize>() = state.free[class(layout)];
            state.free[class(layout)] = place as usize;
        }
    }

    unsafe fn realloc(&self, place: *mut u8, layout: Layout, size: usize) -> *mut u8 {
        unsafe {
            let larger = Layout::from_size_align_unchecked(size, layout.align());
            if size <= MOST && class(larger) == class(layout) {
                return place;
            }
            let moved = self.alloc(larger);
            if !moved.is_null() {
                moved.copy_from_nonoverlapping(place, layout.size().min(size));
                self.dealloc(place, layout);
            }
            moved
        }
    }
}
