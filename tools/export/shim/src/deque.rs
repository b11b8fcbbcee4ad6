use crate::alloc::{AllocError, AllocFailed, Global};
use core::ops::Index;
use rust_alloc::collections::VecDeque as RustDeque;
use rust_alloc::collections::vec_deque::Iter;

/// A queue whose growth can fail. Where a call fails, the queue is as it was.
#[derive(Debug)]
pub struct VecDeque<T>(RustDeque<T>);

impl<T> VecDeque<T> {
    /// A queue without items, which asks for no memory.
    pub fn new(_: Global) -> VecDeque<T> {
        VecDeque(RustDeque::new())
    }

    /// A queue without items, with room for so many.
    pub fn with_capacity(_: Global, capacity: usize) -> Result<VecDeque<T>, AllocError> {
        let mut items = RustDeque::new();
        items.try_reserve_exact(capacity)?;
        Ok(VecDeque(items))
    }

    /// Adds an item at the back. The error has the item, and comes only where there is no room.
    pub fn push_back(&mut self, value: T) -> Result<(), AllocFailed<T>> {
        if self.0.try_reserve(1).is_err() {
            return Err(AllocFailed { value });
        }
        self.0.push_back(value);
        Ok(())
    }

    /// Adds an item at the back, for which there is room.
    pub fn push_back_reserved(&mut self, value: T) {
        debug_assert!(self.0.len() < self.0.capacity());
        self.0.push_back(value);
    }

    /// Puts an item at an index, at most the length. The error has the item.
    pub fn insert(&mut self, index: usize, value: T) -> Result<(), AllocFailed<T>> {
        if self.0.try_reserve(1).is_err() {
            return Err(AllocFailed { value });
        }
        self.0.insert(index, value);
        Ok(())
    }

    /// Takes the first item.
    pub fn pop_front(&mut self) -> Option<T> {
        self.0.pop_front()
    }

    /// Takes the item at an index, if there is one.
    pub fn remove(&mut self, index: usize) -> Option<T> {
        self.0.remove(index)
    }

    /// The first item.
    pub fn front(&self) -> Option<&T> {
        self.0.front()
    }

    /// The last item.
    pub fn back(&self) -> Option<&T> {
        self.0.back()
    }

    /// The item at an index.
    pub fn get(&self, index: usize) -> Option<&T> {
        self.0.get(index)
    }

    /// The item at an index, which may be changed.
    pub fn get_mut(&mut self, index: usize) -> Option<&mut T> {
        self.0.get_mut(index)
    }

    /// Lets all items go.
    pub fn clear(&mut self) {
        self.0.clear();
    }

    /// How many items there are.
    pub fn len(&self) -> usize {
        self.0.len()
    }

    /// Whether there is none.
    pub fn is_empty(&self) -> bool {
        self.0.is_empty()
    }

    /// All items, from front to back.
    pub fn iter(&self) -> Iter<'_, T> {
        self.0.iter()
    }
}

impl<T> Index<usize> for VecDeque<T> {
    type Output = T;
    fn index(&self, index: usize) -> &T {
        &self.0[index]
    }
}

#[cfg(test)]
mod tests {
    use super::*;
    use crate::refusing::{each_refusal, without_memory};
    use rust_alloc::vec::Vec as RustVec;

    fn items(queue: &VecDeque<u32>) -> RustVec<u32> {
        queue.iter().copied().collect()
    }

    fn full() -> VecDeque<u32> {
        let mut queue = VecDeque::with_capacity(Global, 2).unwrap();
        (1..=queue.0.capacity() as u32).for_each(|x| queue.push_back_reserved(x));
        queue
    }

    #[test]
    fn what_adds_items() {
        let (requests, queue, ()) = each_refusal(full, items, |q| q.push_back(9));
        assert_eq!((requests, items(&queue)), (1, [items(&full()), [9].into()].concat()));
        let (requests, queue, ()) = each_refusal(full, items, |q| q.insert(1, 9));
        assert_eq!((requests, items(&queue)[..3] == [1, 9, 2]), (1, true));
        assert_eq!(without_memory(|| VecDeque::new(Global).push_back(7)), Err(AllocFailed { value: 7 }));
        assert_eq!(without_memory(|| VecDeque::new(Global).insert(0, 7)), Err(AllocFailed { value: 7 }));
        assert!(without_memory(|| VecDeque::<u32>::with_capacity(Global, 1)).is_err());
    }

    #[test]
    fn what_reads_and_takes_items() {
        let mut queue = VecDeque::with_capacity(Global, 4).unwrap();
        without_memory(|| (1..5u32).for_each(|x| queue.push_back_reserved(x)));
        *queue.get_mut(1).unwrap() = 7;
        assert_eq!((queue.front(), queue.back(), queue.get(1), queue.get(4), queue[2]), (Some(&1), Some(&4), Some(&7), None, 3));
        assert_eq!((queue.pop_front(), queue.remove(1), queue.remove(2)), (Some(1), Some(3), None));
        assert_eq!((items(&queue), queue.len(), queue.is_empty()), ([7, 4].into(), 2, false));
        queue.clear();
        assert_eq!((queue.pop_front(), queue.is_empty()), (None, true));
    }
}
