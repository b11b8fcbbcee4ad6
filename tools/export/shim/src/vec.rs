use crate::alloc::{AllocError, AllocFailed, Global};
use crate::slices::{permute, sort_by};
use core::ops::{Deref, DerefMut};
use rust_alloc::vec::{IntoIter, Vec as RustVec};

/// A vector whose growth can fail. Where a call fails, the vector is as it was.
#[derive(Debug, PartialEq, Eq, PartialOrd, Ord, Hash)]
pub struct Vec<T>(RustVec<T>);

impl<T> Vec<T> {
    /// A vector without items, which asks for no memory.
    pub fn new(_: Global) -> Vec<T> {
        Vec(RustVec::new())
    }

    /// A vector without items, with room for so many.
    pub fn with_capacity(_: Global, capacity: usize) -> Result<Vec<T>, AllocError> {
        let mut items = RustVec::new();
        items.try_reserve_exact(capacity)?;
        Ok(Vec(items))
    }

    /// The items of an array.
    pub fn from_array<const N: usize>(alloc: Global, items: [T; N]) -> Result<Vec<T>, AllocError> {
        let mut vector = Vec::with_capacity(alloc, N)?;
        vector.0.extend(items);
        Ok(vector)
    }

    /// So many copies of an item.
    pub fn of_copies(alloc: Global, item: T, count: usize) -> Result<Vec<T>, AllocError>
    where
        T: Copy,
    {
        let mut vector = Vec::with_capacity(alloc, count)?;
        vector.0.resize(count, item);
        Ok(vector)
    }

    /// The items of a slice.
    pub fn from_slice(alloc: Global, items: &[T]) -> Result<Vec<T>, AllocError>
    where
        T: Copy,
    {
        let mut vector = Vec::with_capacity(alloc, items.len())?;
        vector.0.extend_from_slice(items);
        Ok(vector)
    }

    /// All items.
    pub fn as_slice(&self) -> &[T] {
        &self.0
    }

    /// Adds an item at the end. The error has the item, and comes only where there is no room.
    #[inline]
    pub fn push(&mut self, value: T) -> Result<(), AllocFailed<T>> {
        if self.0.len() == self.0.capacity() && self.0.try_reserve(1).is_err() {
            return Err(AllocFailed { value });
        }
        self.0.push(value);
        Ok(())
    }

    /// Adds an item at the end, for which there is room.
    pub fn push_reserved(&mut self, value: T) {
        debug_assert!(self.0.len() < self.0.capacity());
        self.0.push(value);
    }

    /// Makes room for so many items more.
    pub fn reserve(&mut self, more: usize) -> Result<(), AllocError> {
        Ok(self.0.try_reserve(more)?)
    }

    /// Adds the items of a slice at the end, all or none.
    pub fn extend_from_slice(&mut self, items: &[T]) -> Result<(), AllocError>
    where
        T: Copy,
    {
        self.0.try_reserve(items.len())?;
        self.0.extend_from_slice(items);
        Ok(())
    }

    /// Puts an item at an index, at most the length. The error has the item.
    pub fn insert(&mut self, index: usize, value: T) -> Result<(), AllocFailed<T>> {
        if self.0.try_reserve(1).is_err() {
            return Err(AllocFailed { value });
        }
        self.0.insert(index, value);
        Ok(())
    }

    /// Takes the last item.
    pub fn pop(&mut self) -> Option<T> {
        self.0.pop()
    }

    /// Takes the item at an index, which is below the length.
    pub fn remove(&mut self, index: usize) -> T {
        self.0.remove(index)
    }

    /// Keeps the first items, at most so many.
    pub fn truncate(&mut self, count: usize) {
        self.0.truncate(count);
    }

    /// Lets all items go.
    pub fn clear(&mut self) {
        self.0.clear();
    }

    /// Keeps the items for which that holds, in order.
    pub fn retain(&mut self, keeps: impl FnMut(&T) -> bool) {
        self.0.retain(keeps);
    }

    /// As `retain`, with items that may be changed.
    pub(crate) fn retain_mut(&mut self, keeps: impl FnMut(&mut T) -> bool) {
        self.0.retain_mut(keeps);
    }

    /// The items from an index on, which are taken. There has to be memory for them, which the caller has made.
    pub(crate) fn move_tail(&mut self, from: usize, to: &mut Vec<T>) {
        debug_assert!(to.0.capacity() - to.0.len() >= self.0.len() - from);
        to.0.extend(self.0.drain(from..));
    }

    /// Sorts the items, equal ones in their order. On an error they are as they were.
    pub fn sort(&mut self) -> Result<(), AllocError>
    where
        T: Ord,
    {
        sort_by(self, |one, other| one.cmp(other))
    }

    /// Sorts the items by a key, equal ones in their order. On an error they are as they were.
    pub fn sort_by_key<K: Ord>(&mut self, mut key: impl FnMut(&T) -> K) -> Result<(), AllocError> {
        sort_by(self, |one, other| key(one).cmp(&key(other)))
    }

    /// As `sort_by_key`, with each key worked out once.
    pub fn sort_by_cached_key<K: Ord>(&mut self, mut key: impl FnMut(&T) -> K) -> Result<(), AllocError> {
        let mut keys = Vec::with_capacity(Global, self.len())?;
        let mut order = Vec::with_capacity(Global, self.len())?;
        for (place, item) in self.iter().enumerate() {
            keys.push_reserved((key(item), place));
        }
        keys.sort_unstable();
        keys.into_iter().for_each(|(_, place)| order.push_reserved(place));
        permute(self, &mut order);
        Ok(())
    }
}

impl<T> Deref for Vec<T> {
    type Target = [T];
    fn deref(&self) -> &[T] {
        &self.0
    }
}

impl<T> DerefMut for Vec<T> {
    fn deref_mut(&mut self) -> &mut [T] {
        &mut self.0
    }
}

impl<T> IntoIterator for Vec<T> {
    type Item = T;
    type IntoIter = IntoIter<T>;
    fn into_iter(self) -> IntoIter<T> {
        self.0.into_iter()
    }
}

impl<'a, T> IntoIterator for &'a Vec<T> {
    type Item = &'a T;
    type IntoIter = core::slice::Iter<'a, T>;
    fn into_iter(self) -> core::slice::Iter<'a, T> {
        self.0.iter()
    }
}

impl<'a, T> IntoIterator for &'a mut Vec<T> {
    type Item = &'a mut T;
    type IntoIter = core::slice::IterMut<'a, T>;
    fn into_iter(self) -> core::slice::IterMut<'a, T> {
        self.0.iter_mut()
    }
}

#[cfg(test)]
mod tests {
    use super::*;
    use crate::refusing::{each_refusal, without_memory};

    fn made(items: &[u32]) -> Vec<u32> {
        Vec::from_slice(Global, items).unwrap()
    }

    #[test]
    fn what_makes_a_vector() {
        assert!(without_memory(|| Vec::<u32>::new(Global)).is_empty());
        assert_eq!(Vec::<u32>::with_capacity(Global, 5).unwrap().0.capacity(), 5);
        assert_eq!(Vec::from_array(Global, [1, 2]).unwrap().as_slice(), [1, 2]);
        assert_eq!(Vec::of_copies(Global, 4, 2).unwrap().as_slice(), [4, 4]);
        assert_eq!(made(&[3, 1]).as_slice(), [3, 1]);
        assert!(without_memory(|| Vec::<u32>::with_capacity(Global, 5)).is_err());
        assert!(without_memory(|| Vec::from_array(Global, [1, 2])).is_err());
        assert!(without_memory(|| Vec::of_copies(Global, 4, 2)).is_err());
        assert!(without_memory(|| Vec::from_slice(Global, &[3, 1])).is_err());
        assert!(Vec::<u32>::with_capacity(Global, usize::MAX).is_err());
    }

    #[test]
    fn what_adds_items() {
        let full = || made(&[1, 2]);
        let seen = |v: &Vec<u32>| v.0.clone();
        let (requests, vector, ()) = each_refusal(full, seen, |v| v.push(3));
        assert_eq!((requests, vector.as_slice()), (1, &[1, 2, 3][..]));
        let (requests, vector, ()) = each_refusal(full, seen, |v| v.insert(1, 3));
        assert_eq!((requests, vector.as_slice()), (1, &[1, 3, 2][..]));
        let (requests, vector, ()) = each_refusal(full, seen, |v| v.extend_from_slice(&[8, 9]));
        assert_eq!((requests, vector.as_slice()), (1, &[1, 2, 8, 9][..]));
        let (requests, vector, ()) = each_refusal(full, seen, |v| v.reserve(3));
        assert_eq!((requests, vector.as_slice()), (1, &[1, 2][..]));
    }

    #[test]
    fn a_refused_item_comes_back() {
        assert_eq!(without_memory(|| Vec::new(Global).push(7)), Err(AllocFailed { value: 7 }));
        assert_eq!(without_memory(|| Vec::new(Global).insert(0, 7)), Err(AllocFailed { value: 7 }));
    }

    #[test]
    fn with_room_nothing_is_asked_for() {
        let mut vector = Vec::with_capacity(Global, 4).unwrap();
        without_memory(|| {
            vector.push(1).unwrap();
            vector.push_reserved(2);
            vector.insert(0, 3).unwrap();
            vector.extend_from_slice(&[4]).unwrap();
        });
        assert_eq!(vector.as_slice(), [3, 1, 2, 4]);
    }

    #[test]
    fn what_takes_items() {
        let mut vector = made(&[5, 6, 7, 8, 9]);
        assert_eq!((vector.pop(), vector.remove(1)), (Some(9), 6));
        vector.retain(|x| *x != 7);
        assert_eq!(vector.as_slice(), [5, 8]);
        vector.truncate(7);
        vector.truncate(1);
        assert_eq!(vector.as_slice(), [5]);
        vector.clear();
        assert_eq!((vector.pop(), vector.is_empty()), (None, true));
    }

    #[test]
    fn iterators_and_items() {
        let mut vector = made(&[1, 2]);
        vector[0] = 4;
        (&mut vector).into_iter().for_each(|x| *x += 1);
        assert!((&vector).into_iter().eq(&[5, 3]));
        assert!(vector.into_iter().eq([5, 3]));
    }

    /// Rust's own stable sort says what is due.
    #[test]
    fn sorts_are_stable_and_leave_the_items_on_an_error() {
        let unsorted: rust_alloc::vec::Vec<u32> = (0..1000).map(|i| i * 7919 % 1000).collect();
        let calls: [(&str, fn(&mut Vec<u32>) -> Result<(), AllocError>, fn(&u32) -> u32); 3] = [
            ("sort", Vec::sort, |x| *x),
            ("sort_by_key", |v| v.sort_by_key(|x| x % 10), |x| x % 10),
            ("sort_by_cached_key", |v| v.sort_by_cached_key(|x| x / 10), |x| x / 10),
        ];
        for (name, call, key) in calls {
            let mut wanted = unsorted.clone();
            wanted.sort_by_key(key);
            let (requests, sorted, ()) = each_refusal(|| made(&unsorted), |v| v.0.clone(), call);
            assert_eq!(sorted.as_slice(), wanted.as_slice(), "{name}");
            assert!(requests >= 1, "{name} asks for no memory");
        }
    }
}
