use crate::alloc::{AllocError, AllocFailed, Global};
use crate::vec::Vec;
use core::hash::{Hash, Hasher};

// The least number of places: a power of two, as all are.
const LEAST: usize = 8;

/// A map by hashes with a fixed seed, whose growth can fail: open addressing over one table. It gives no order of its entries. Where
/// `insert` fails, the map is as it was.
#[derive(Debug)]
pub struct HashMap<K, V> {
    places: Vec<Option<(K, V)>>,
    count: usize,
}

// The hash of Fowler, Noll and Vo, in its variant 1a.
struct Fnv(u64);

impl Hasher for Fnv {
    fn write(&mut self, bytes: &[u8]) {
        for byte in bytes {
            self.0 = (self.0 ^ u64::from(*byte)).wrapping_mul(0x0100_0000_01b3);
        }
    }
    fn finish(&self) -> u64 {
        self.0 ^ (self.0 >> 29)
    }
}

impl<K: Eq + Hash, V> HashMap<K, V> {
    /// A map without entries, which asks for no memory.
    pub fn new(alloc: Global) -> HashMap<K, V> {
        HashMap { places: Vec::new(alloc), count: 0 }
    }

    /// The place of a key, or the empty place where it would be. At least one is empty.
    fn place(&self, key: &K) -> usize {
        let mut hash = Fnv(0xcbf2_9ce4_8422_2325);
        key.hash(&mut hash);
        let mask = self.places.len() - 1;
        let mut at = hash.finish() as usize & mask;
        while self.places[at].as_ref().is_some_and(|entry| entry.0 != *key) {
            at = (at + 1) & mask;
        }
        at
    }

    /// The value of a key.
    pub fn get(&self, key: &K) -> Option<&V> {
        if self.places.is_empty() {
            return None;
        }
        self.places[self.place(key)].as_ref().map(|entry| &entry.1)
    }

    /// Whether the key has a value.
    pub fn contains_key(&self, key: &K) -> bool {
        self.get(key).is_some()
    }

    /// Sets the value of a key, and returns the old one. The error has both, and comes only where the key was absent.
    pub fn insert(&mut self, key: K, value: V) -> Result<Option<V>, AllocFailed<(K, V)>> {
        let is_full = 4 * (self.count + 1) > 3 * self.places.len();
        if is_full && !self.contains_key(&key) && self.grow().is_err() {
            return Err(AllocFailed { value: (key, value) });
        }
        let at = self.place(&key);
        let old = self.places[at].replace((key, value));
        self.count += usize::from(old.is_none());
        Ok(old.map(|entry| entry.1))
    }

    fn grow(&mut self) -> Result<(), AllocError> {
        let size = (2 * self.places.len()).max(LEAST);
        let mut larger = Vec::with_capacity(Global, size)?;
        (0..size).for_each(|_| larger.push_reserved(None));
        for entry in core::mem::replace(&mut self.places, larger).into_iter().flatten() {
            let at = self.place(&entry.0);
            self.places[at] = Some(entry);
        }
        Ok(())
    }

    /// How many entries there are.
    pub fn len(&self) -> usize {
        self.count
    }

    /// Whether there is none.
    pub fn is_empty(&self) -> bool {
        self.count == 0
    }
}

#[cfg(test)]
mod tests {
    use super::*;
    use crate::refusing::{each_refusal, without_memory};
    use rust_std::collections::HashMap as RustMap;

    /// The same changes of Rust's own map say what is due.
    #[test]
    fn a_map_is_that_of_rust() {
        let (mut ours, mut theirs) = (HashMap::new(Global), RustMap::new());
        for step in 0..5_000u64 {
            let key = step * step % 977;
            assert_eq!(ours.insert(key, step).unwrap(), theirs.insert(key, step));
            assert_eq!((ours.get(&step), ours.contains_key(&step)), (theirs.get(&step), theirs.contains_key(&step)));
        }
        assert_eq!((ours.len(), ours.is_empty()), (theirs.len(), false));
        assert!(theirs.iter().all(|(k, v)| ours.get(k) == Some(v)));
    }

    #[test]
    fn a_refused_entry_comes_back_and_changes_nothing() {
        for count in 0..50u64 {
            let made = || {
                let mut map = HashMap::new(Global);
                (0..count).for_each(|k| assert!(map.insert(k, k).is_ok()));
                map
            };
            let seen = |map: &HashMap<u64, u64>| (map.len(), (0..60).filter_map(|k| map.get(&k).copied()).collect::<rust_alloc::vec::Vec<u64>>());
            let (_, map, old) = each_refusal(made, seen, |m| m.insert(count, 7));
            assert_eq!((map.len() as u64, old, map.get(&count)), (count + 1, None, Some(&7)));
            // A key that is there needs no memory.
            let mut map = made();
            assert!(count == 0 || without_memory(|| map.insert(0, 9)) == Ok(Some(0)));
        }
        assert_eq!(without_memory(|| HashMap::new(Global).insert(1, 2)), Err(AllocFailed { value: (1, 2) }));
    }

    #[test]
    fn an_empty_map() {
        let map = without_memory(|| HashMap::<u64, u64>::new(Global));
        assert_eq!((map.get(&1), map.len(), map.is_empty()), (None, 0, true));
    }
}
