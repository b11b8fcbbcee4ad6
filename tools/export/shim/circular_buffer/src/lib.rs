//! A ring of items with a fixed capacity, by the contracts of the toolchain's `circular_buffer`.
#![no_std]
#![forbid(unsafe_code)]
extern crate alloc;
use alloc::collections::VecDeque;
use alloc::collections::vec_deque::Iter;
use rattle_std::alloc::{AllocError, Global};

/// A ring of items, which asks for its memory once.
#[derive(Debug)]
pub struct HeapCircularBuffer<T> {
    items: VecDeque<T>,
    capacity: usize,
}

impl<T> HeapCircularBuffer<T> {
    /// A ring without items, with room for so many.
    pub fn with_capacity(_: Global, capacity: usize) -> Result<HeapCircularBuffer<T>, AllocError> {
        let mut items = VecDeque::new();
        items.try_reserve_exact(capacity).map_err(|_| AllocError)?;
        Ok(HeapCircularBuffer { items, capacity })
    }

    /// Adds an item at the back, and keeps the last items that have room. Returns the one that has not: the first, or the item itself
    /// where there is no room at all.
    pub fn push_back(&mut self, item: T) -> Option<T> {
        if self.capacity == 0 {
            return Some(item);
        }
        let out = if self.items.len() == self.capacity { self.items.pop_front() } else { None };
        self.items.push_back(item);
        out
    }

    /// Takes the first item.
    pub fn pop_front(&mut self) -> Option<T> {
        self.items.pop_front()
    }

    /// The first item.
    pub fn front(&self) -> Option<&T> {
        self.items.front()
    }

    /// The last item.
    pub fn back(&self) -> Option<&T> {
        self.items.back()
    }

    /// The item at an index, from the front.
    pub fn get(&self, index: usize) -> Option<&T> {
        self.items.get(index)
    }

    /// How many items there are.
    pub fn len(&self) -> usize {
        self.items.len()
    }

    /// Whether there is none.
    pub fn is_empty(&self) -> bool {
        self.items.is_empty()
    }

    /// Lets all items go.
    pub fn clear(&mut self) {
        self.items.clear();
    }

    /// All items, from front to back.
    pub fn iter(&self) -> Iter<'_, T> {
        self.items.iter()
    }
}

#[cfg(test)]
mod tests {
    use super::*;

    fn ring(capacity: usize) -> HeapCircularBuffer<u8> {
        HeapCircularBuffer::with_capacity(Global, capacity).unwrap()
    }

    /// The contract: the last items of the old ones and the new one are kept, and the first goes out where there was no room.
    #[test]
    fn the_last_items_are_kept() {
        for capacity in 0..4 {
            let mut ring = ring(capacity);
            let mut all = alloc::vec::Vec::new();
            for item in 0..10u8 {
                let before = all[all.len().saturating_sub(capacity)..].to_vec();
                all.push(item);
                let due = if before.len() < capacity { None } else { before.first().copied().or(Some(item)) };
                assert_eq!(ring.push_back(item), due);
                let kept = &all[all.len().saturating_sub(capacity)..];
                assert!(ring.iter().eq(kept));
                assert_eq!((ring.front(), ring.back(), ring.len()), (kept.first(), kept.last(), kept.len()));
                assert_eq!((ring.get(0), ring.get(capacity)), (kept.first(), None));
            }
        }
    }

    #[test]
    fn items_are_taken() {
        let mut ring = ring(3);
        (1..5).for_each(|x| assert_eq!(ring.push_back(x).is_some(), x == 4));
        assert_eq!((ring.pop_front(), ring.pop_front(), ring.len()), (Some(2), Some(3), 1));
        ring.clear();
        assert_eq!((ring.pop_front(), ring.is_empty(), ring.front(), ring.back()), (None, true, None, None));
    }

    #[test]
    fn memory_that_is_not_there() {
        assert!(HeapCircularBuffer::<u64>::with_capacity(Global, usize::MAX / 16).is_err());
    }
}
