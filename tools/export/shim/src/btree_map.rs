use crate::alloc::{AllocError, AllocFailed, Global};
use crate::vec::Vec;

// The most entries of a row, for which it has room from the start.
const ROW: usize = 128;

/// A map in the order of its keys, whose growth can fail. Where `insert` fails, the map is as it was.
///
/// The entries are in rows, none of which is empty: Rust's own map ends the process where memory runs out.
#[derive(Debug, PartialEq, Eq)]
pub struct BTreeMap<K, V> {
    rows: Vec<Vec<(K, V)>>,
}

impl<K: Ord, V> BTreeMap<K, V> {
    /// A map without entries, which asks for no memory.
    pub fn new(alloc: Global) -> BTreeMap<K, V> {
        BTreeMap { rows: Vec::new(alloc) }
    }

    /// The row of a key, and its place there or where it would be.
    fn place(&self, key: &K) -> (usize, Result<usize, usize>) {
        let row = self.rows.partition_point(|r| r[0].0 <= *key).saturating_sub(1);
        (row, self.rows.get(row).map_or(Err(0), |r| r.binary_search_by(|e| e.0.cmp(key))))
    }

    /// The row and place of a key that is there.
    fn found(&self, key: &K) -> Option<(usize, usize)> {
        let (row, place) = self.place(key);
        Some((row, place.ok()?))
    }

    /// Sets the value of a key, and returns the old one. The error has both, and comes only where the key was absent.
    pub fn insert(&mut self, key: K, value: V) -> Result<Option<V>, AllocFailed<(K, V)>> {
        let at = match self.place(&key) {
            (row, Ok(at)) => return Ok(Some(core::mem::replace(&mut self.rows[row][at].1, value))),
            (row, Err(at)) => self.room(row, at),
        };
        match at {
            Ok((row, at)) => self.rows[row].insert(at, (key, value)).map(|()| None),
            Err(AllocError) => Err(AllocFailed { value: (key, value) }),
        }
    }

    /// Makes room for one entry more at a place, which may come to be in the next row.
    fn room(&mut self, row: usize, at: usize) -> Result<(usize, usize), AllocError> {
        if self.rows.get(row).is_some_and(|r| r.len() < ROW) {
            return Ok((row, at));
        }
        self.rows.reserve(1)?;
        let mut next = Vec::with_capacity(Global, ROW)?;
        if self.rows.is_empty() {
            self.rows.push_reserved(next);
            return Ok((0, 0));
        }
        // A row that grows at its end stays as it is, and the new one begins there.
        let kept = if at == ROW { ROW } else { ROW / 2 };
        self.rows[row].move_tail(kept, &mut next);
        self.rows.insert(row + 1, next)?;
        Ok(if at <= kept && at < ROW { (row, at) } else { (row + 1, at - kept) })
    }

    /// The value of a key.
    pub fn get(&self, key: &K) -> Option<&V> {
        self.found(key).map(|(row, at)| &self.rows[row][at].1)
    }

    /// The value of a key, which may be changed.
    pub fn get_mut(&mut self, key: &K) -> Option<&mut V> {
        self.found(key).map(|(row, at)| &mut self.rows[row][at].1)
    }

    /// Whether the key has a value.
    pub fn contains_key(&self, key: &K) -> bool {
        self.found(key).is_some()
    }

    /// Takes the key's entry, and returns its value.
    pub fn remove(&mut self, key: &K) -> Option<V> {
        let (row, at) = self.found(key)?;
        let value = self.rows[row].remove(at).1;
        if self.rows[row].is_empty() {
            self.rows.remove(row);
        }
        Some(value)
    }

    /// Keeps the entries for which that holds.
    pub fn retain(&mut self, mut keeps: impl FnMut(&K, &mut V) -> bool) {
        for row in &mut self.rows {
            row.retain_mut(|e| keeps(&e.0, &mut e.1));
        }
        self.rows.retain(|r| !r.is_empty());
    }

    /// All entries, in the order of their keys.
    pub fn iter(&self) -> impl Iterator<Item = (&K, &V)> {
        self.rows.iter().flatten().map(|e| (&e.0, &e.1))
    }

    /// How many entries there are.
    pub fn len(&self) -> usize {
        self.rows.iter().map(|r| r.len()).sum()
    }

    /// Whether there is none.
    pub fn is_empty(&self) -> bool {
        self.rows.is_empty()
    }
}

#[cfg(test)]
mod tests {
    use super::*;
    use crate::refusing::{each_refusal, without_memory};
    use rust_alloc::collections::BTreeMap as RustMap;

    /// The entries of a map.
    fn entries(map: &BTreeMap<u64, u64>) -> rust_alloc::vec::Vec<(u64, u64)> {
        map.iter().map(|(k, v)| (*k, *v)).collect()
    }

    /// The same changes of Rust's own map say what is due.
    #[test]
    fn a_map_is_that_of_rust() {
        let (mut ours, mut theirs) = (BTreeMap::new(Global), RustMap::new());
        let mut drawn = 1u64;
        for step in 0..20_000u64 {
            drawn = drawn.wrapping_mul(6_364_136_223_846_793_005).wrapping_add(1_442_695_040_888_963_407);
            let key = if step % 3 == 0 { step } else { drawn >> 52 };
            if drawn >> 40 & 3 == 0 {
                assert_eq!(ours.remove(&key), theirs.remove(&key));
            } else {
                assert_eq!(ours.insert(key, step).unwrap(), theirs.insert(key, step));
            }
            if let Some(value) = ours.get_mut(&(key ^ 1)) {
                *value += 1;
                *theirs.get_mut(&(key ^ 1)).unwrap() += 1;
            }
            assert_eq!((ours.get(&(key ^ 2)), ours.contains_key(&key)), (theirs.get(&(key ^ 2)), theirs.contains_key(&key)));
            if step % 5_000 == 0 {
                ours.retain(|k, _| k % 7 != 0);
                theirs.retain(|k, _| k % 7 != 0);
            }
        }
        assert!(ours.iter().eq(theirs.iter()));
        assert_eq!((ours.len(), ours.is_empty()), (theirs.len(), false));
    }

    /// A full row is split at each of its places, and each request is refused.
    #[test]
    fn a_refused_entry_comes_back_and_changes_nothing() {
        for key in 0..=2 * ROW as u64 {
            let full = || {
                let mut map = BTreeMap::new(Global);
                (0..ROW as u64).for_each(|k| assert!(map.insert(2 * k + 1, k).is_ok()));
                map
            };
            let (requests, map, old) = each_refusal(full, entries, |m| m.insert(key, 9));
            assert_eq!((requests > 0, old.is_none()), (key % 2 == 0, key % 2 == 0));
            let mut wanted: RustMap<u64, u64> = (0..ROW as u64).map(|k| (2 * k + 1, k)).collect();
            wanted.insert(key, 9);
            assert!(map.iter().eq(wanted.iter()), "{key}");
            assert!(map.rows.iter().all(|r| (1..=ROW).contains(&r.len())), "{key}");
        }
        let refused = without_memory(|| BTreeMap::new(Global).insert(1, 2));
        assert_eq!(refused, Err(AllocFailed { value: (1, 2) }));
    }

    #[test]
    fn an_empty_map() {
        let mut map = without_memory(|| BTreeMap::<u64, u64>::new(Global));
        assert_eq!((map.remove(&1), map.get(&1), map.len(), map.is_empty()), (None, None, 0, true));
        map.insert(1, 2).unwrap();
        assert_eq!((map.remove(&1), map.len(), map.is_empty()), (Some(2), 0, true));
    }
}
