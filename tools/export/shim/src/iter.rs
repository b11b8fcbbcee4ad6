//! Iterators that fill a vector.
use crate::alloc::{AllocError, Global};
use crate::vec::Vec;
pub use core::iter::*;

/// `collect(alloc)`, to which the export turns it.
pub trait CollectIn: Iterator + Sized {
    /// All items, in order.
    fn collect_in(self, alloc: Global) -> Result<Vec<Self::Item>, AllocError> {
        let mut all = Vec::with_capacity(alloc, self.size_hint().0)?;
        for item in self {
            all.push(item)?;
        }
        Ok(all)
    }
}

impl<I: Iterator> CollectIn for I {}

#[cfg(test)]
mod tests {
    use super::*;
    use crate::refusing::each_refusal;

    #[test]
    fn items_are_collected() {
        // The second iterator does not say how many come, so that the vector grows.
        let (requests, (), all) = each_refusal(|| (), |()| (), |()| (0..40u32).collect_in(Global));
        assert_eq!((requests, all.len(), all[39]), (1, 40, 39));
        let (requests, (), all) = each_refusal(|| (), |()| (), |()| (0..40u32).filter(|x| x % 2 == 0).collect_in(Global));
        assert!(requests > 1);
        assert_eq!((all.len(), all[19]), (20, 38));
    }
}
