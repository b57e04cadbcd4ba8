//! Stands in for the brie_tree crate: a map sorted by key, kept in one vector.
//!
//! Only what `reg_matrix.rs` calls. A cursor or an iterator is the index of its next element.

use std::ops::Bound;

pub mod nonmax {
    /// A number other than `u32::MAX`.
    #[derive(Clone, Copy, PartialEq, Eq, PartialOrd, Ord)]
    pub struct NonMaxU32(u32);

    impl NonMaxU32 {
        pub fn new(value: u32) -> Option<Self> {
            (value != u32::MAX).then_some(Self(value))
        }

        pub fn get(self) -> u32 {
            self.0
        }
    }
}

/// A key that is ordered as its whole number is.
pub trait BTreeKey: Copy {
    type Int: Copy + Ord;
    fn to_int(self) -> Self::Int;
    fn from_int(int: Self::Int) -> Self;
}

pub struct BTree<K, T> {
    rows: Vec<(K, T)>,
}

impl<K, T> Default for BTree<K, T> {
    fn default() -> Self {
        Self { rows: Vec::new() }
    }
}

impl<K: BTreeKey, T> BTree<K, T> {
    pub fn is_empty(&self) -> bool {
        self.rows.is_empty()
    }

    pub fn clear(&mut self) {
        self.rows.clear();
    }

    /// The index of the first element within the bound.
    fn first_from(&self, bound: Bound<K>) -> usize {
        match bound {
            Bound::Unbounded => 0,
            Bound::Included(b) => self.rows.partition_point(|r| r.0.to_int() < b.to_int()),
            Bound::Excluded(b) => self.rows.partition_point(|r| r.0.to_int() <= b.to_int()),
        }
    }

    pub fn insert(&mut self, key: K, value: T) -> Option<T> {
        let at = self.first_from(Bound::Included(key));
        match self.rows.get_mut(at) {
            Some(row) if row.0.to_int() == key.to_int() => Some(std::mem::replace(&mut row.1, value)),
            _ => {
                self.rows.insert(at, (key, value));
                None
            }
        }
    }

    pub fn remove(&mut self, key: K) -> Option<T> {
        let at = self.first_from(Bound::Included(key));
        let found = self.rows.get(at)?.0.to_int() == key.to_int();
        found.then(|| self.rows.remove(at).1)
    }

    pub fn iter_from(&self, bound: Bound<K>) -> Iter<'_, K, T> {
        self.cursor_at(bound).iter()
    }

    pub fn cursor_at(&self, bound: Bound<K>) -> Cursor<'_, K, T> {
        Cursor { rows: &self.rows, at: self.first_from(bound) }
    }

    pub fn cursor_mut_at(&mut self, bound: Bound<K>) -> CursorMut<'_, K, T> {
        let at = self.first_from(bound);
        CursorMut { rows: &mut self.rows, at }
    }
}

impl<'a, K: BTreeKey, T> IntoIterator for &'a BTree<K, T> {
    type Item = (K, &'a T);
    type IntoIter = Iter<'a, K, T>;

    fn into_iter(self) -> Iter<'a, K, T> {
        self.iter_from(Bound::Unbounded)
    }
}

pub struct Iter<'a, K, T> {
    rows: &'a [(K, T)],
    at: usize,
}

impl<'a, K: BTreeKey, T> Iterator for Iter<'a, K, T> {
    type Item = (K, &'a T);

    fn next(&mut self) -> Option<(K, &'a T)> {
        let (key, value) = self.rows.get(self.at)?;
        self.at += 1;
        Some((*key, value))
    }
}

pub struct Cursor<'a, K, T> {
    rows: &'a [(K, T)],
    at: usize,
}

impl<'a, K: BTreeKey, T> Cursor<'a, K, T> {
    /// The element at the cursor, none past the last.
    pub fn entry(&self) -> Option<(K, &'a T)> {
        let (key, value) = self.rows.get(self.at)?;
        Some((*key, value))
    }

    /// Steps back by one element; at the first one it stays and answers false.
    ///
    /// Not `self.at -= moves as usize`: without overflow checks rustc 1.95.0 leaves the step out then.
    pub fn prev(&mut self) -> bool {
        if self.at == 0 {
            return false;
        }
        self.at -= 1;
        true
    }

    /// All elements from the cursor on.
    pub fn iter(&self) -> Iter<'a, K, T> {
        Iter { rows: self.rows, at: self.at }
    }
}

pub struct CursorMut<'a, K, T> {
    rows: &'a mut Vec<(K, T)>,
    at: usize,
}

impl<K: BTreeKey, T> CursorMut<'_, K, T> {
    pub fn entry(&self) -> Option<(K, &T)> {
        let (key, value) = self.rows.get(self.at)?;
        Some((*key, value))
    }

    /// Removes the element at the cursor, which then stands at the one behind it.
    pub fn remove(&mut self) -> (K, T) {
        self.rows.remove(self.at)
    }

    /// Inserts an element before the cursor, which stays where it was.
    pub fn insert_before(&mut self, key: K, value: T) {
        self.rows.insert(self.at, (key, value));
        self.at += 1;
    }
}

#[cfg(test)]
mod tests {
    use super::*;
    use std::collections::BTreeMap;

    impl BTreeKey for u32 {
        type Int = u32;

        fn to_int(self) -> u32 {
            self
        }

        fn from_int(int: u32) -> u32 {
            int
        }
    }

    /// The same elements, the same iteration and the same steps back as the standard map, from every bound.
    #[test]
    fn as_the_standard_map() {
        let (mut tree, mut map) = (BTree::default(), BTreeMap::new());
        let mut state = 1u32;
        for _ in 0..2000 {
            state = state.wrapping_mul(1_664_525).wrapping_add(1_013_904_223);
            let (key, value) = (state >> 26, state >> 8);
            if state & 4 == 0 {
                assert_eq!(tree.remove(key), map.remove(&key));
            } else {
                assert_eq!(tree.insert(key, value), map.insert(key, value));
            }
            for bound in [Bound::Unbounded, Bound::Included(key), Bound::Excluded(key)] {
                let range = (bound, Bound::Unbounded);
                assert!(tree.iter_from(bound).eq(map.range(range).map(|(k, v)| (*k, v))));
                let mut cursor = tree.cursor_at(bound);
                let at = map.range(range).next().map(|(k, _)| *k);
                assert_eq!(cursor.entry().map(|e| e.0), at);
                let before: Vec<u32> = map.keys().copied().filter(|k| at.is_none_or(|at| *k < at)).collect();
                for key in before.iter().rev() {
                    assert!(cursor.prev());
                    assert_eq!(cursor.entry().map(|e| e.0), Some(*key));
                }
                assert!(!cursor.prev());
            }
        }
    }
}
