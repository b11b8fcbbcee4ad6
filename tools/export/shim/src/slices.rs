//! Methods of slices that need memory.
use crate::alloc::{AllocError, Global};
use crate::string::String;
use crate::vec::Vec;
use core::cmp::Ordering;

/// Sorts of slices: `sort(alloc)` and `sort_by_key(alloc, ..)`, to which the export turns them.
pub trait SliceIn {
    /// What the slice has.
    type Item;
    /// Sorts the items, equal ones in their order. On an error they are as they were.
    fn sort_in(&mut self, alloc: Global) -> Result<(), AllocError>
    where
        Self::Item: Ord;
    /// Sorts the items by a key, equal ones in their order. On an error they are as they were.
    fn sort_by_key_in<K: Ord>(&mut self, alloc: Global, key: impl FnMut(&Self::Item) -> K) -> Result<(), AllocError>;
}

impl<T> SliceIn for [T] {
    type Item = T;
    fn sort_in(&mut self, _: Global) -> Result<(), AllocError>
    where
        T: Ord,
    {
        sort_by(self, |one, other| one.cmp(other))
    }
    fn sort_by_key_in<K: Ord>(&mut self, _: Global, mut key: impl FnMut(&T) -> K) -> Result<(), AllocError> {
        sort_by(self, |one, other| key(one).cmp(&key(other)))
    }
}

/// A stable sort whose memory can run out, where Rust's own ends the process: it sorts places, and then moves the items there.
pub(crate) fn sort_by<T>(items: &mut [T], mut compare: impl FnMut(&T, &T) -> Ordering) -> Result<(), AllocError> {
    if items.is_sorted_by(|one, other| compare(one, other).is_le()) {
        return Ok(());
    }
    let mut order = Vec::with_capacity(Global, items.len())?;
    (0..items.len()).for_each(|place| order.push_reserved(place));
    order.sort_unstable_by(|&one, &other| compare(&items[one], &items[other]).then(one.cmp(&other)));
    permute(items, &mut order);
    Ok(())
}

/// Moves to each place the item at `order` of it. The order has each place once, and each is its own at the end.
pub(crate) fn permute<T>(items: &mut [T], order: &mut [usize]) {
    for start in 0..items.len() {
        let mut place = start;
        loop {
            let from = core::mem::replace(&mut order[place], place);
            if from == start {
                break;
            }
            items.swap(place, from);
            place = from;
        }
    }
}

/// `concat(alloc)` of texts, to which the export turns it.
pub trait ConcatIn {
    /// The texts one after another.
    fn concat_in(&self, alloc: Global) -> Result<String, AllocError>;
}

impl ConcatIn for [&str] {
    fn concat_in(&self, alloc: Global) -> Result<String, AllocError> {
        let mut all = String::new(alloc);
        for text in self {
            all.push_str(text)?;
        }
        Ok(all)
    }
}

#[cfg(test)]
mod tests {
    use super::*;
    use crate::refusing::{each_refusal, without_memory};

    #[test]
    fn slices_are_sorted() {
        let (requests, sorted, ()) = each_refusal(|| [(3, 0), (1, 0), (3, 1), (2, 0)], |s| *s, |s| s.sort_by_key_in(Global, |x| x.0));
        assert_eq!((requests, sorted), (1, [(1, 0), (2, 0), (3, 0), (3, 1)]));
        let (requests, sorted, ()) = each_refusal(|| [3, 1, 2], |s| *s, |s| s.sort_in(Global));
        assert_eq!((requests, sorted), (1, [1, 2, 3]));
    }

    #[test]
    fn each_order_of_five_is_sorted() {
        for number in 0..5u32.pow(5) {
            let mut items: [u32; 5] = core::array::from_fn(|i| number / 5u32.pow(i as u32) % 5);
            let mut wanted = items;
            wanted.sort();
            items.sort_in(Global).unwrap();
            assert_eq!(items, wanted);
        }
    }

    #[test]
    fn texts_are_joined() {
        assert_eq!(["a", "", "bc"].concat_in(Global).unwrap().as_str(), "abc");
        assert_eq!(without_memory(|| ["a", "bc"].concat_in(Global)), Err(AllocError));
    }
}
