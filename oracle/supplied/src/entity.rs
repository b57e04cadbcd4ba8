//! Entities, their ranges, iterators, lists and sets; the three maps are supplied.

use core::fmt;

include!(concat!(env!("OUT_DIR"), "/entity.rs"));

pub use primary_map::PrimaryMap;
pub use secondary_map::SecondaryMap;

pub trait EntityRef: Copy {
    fn new(index: usize) -> Self;
    fn index(self) -> usize;
}

/// A half-open range of entities.
#[derive(Clone, Copy, Debug, PartialEq, Eq)]
pub struct EntityRange<K> {
    pub from: K,
    pub to: K,
}

impl<K> EntityRange<K> {
    pub fn new(from: K, to: K) -> Self {
        Self { from, to }
    }
}

impl<K: fmt::Display> fmt::Display for EntityRange<K> {
    fn fmt(&self, f: &mut fmt::Formatter<'_>) -> fmt::Result {
        write!(f, "{}..{}", self.from, self.to)
    }
}

pub mod iter {
    use super::EntityRef;
    use core::iter::Enumerate;
    use core::marker::PhantomData;

    /// All entities below a length.
    pub struct Keys<K>(core::ops::Range<usize>, PhantomData<K>);

    impl<K> Keys<K> {
        pub fn with_len(len: usize) -> Self {
            Self(0..len, PhantomData)
        }
    }

    impl<K: EntityRef> Iterator for Keys<K> {
        type Item = K;

        fn next(&mut self) -> Option<K> {
            self.0.next().map(K::new)
        }
    }

    impl<K: EntityRef> DoubleEndedIterator for Keys<K> {
        fn next_back(&mut self) -> Option<K> {
            self.0.next_back().map(K::new)
        }
    }

    macro_rules! with_keys {
        ($($name:ident: $inner:ty, $item:ty;)*) => {$(
            pub struct $name<'a, K, T>(Enumerate<$inner>, PhantomData<(K, &'a T)>);

            impl<'a, K, T> $name<'a, K, T> {
                pub fn new(inner: $inner) -> Self {
                    Self(inner.enumerate(), PhantomData)
                }
            }

            impl<'a, K: EntityRef, T> Iterator for $name<'a, K, T> {
                type Item = (K, $item);

                fn next(&mut self) -> Option<Self::Item> {
                    self.0.next().map(|(index, value)| (K::new(index), value))
                }
            }
        )*};
    }

    with_keys! {
        Iter: core::slice::Iter<'a, T>, &'a T;
        IterMut: core::slice::IterMut<'a, T>, &'a mut T;
    }

    pub struct IntoIter<K, T>(Enumerate<std::vec::IntoIter<T>>, PhantomData<K>);

    impl<K, T> IntoIter<K, T> {
        pub fn new(inner: std::vec::IntoIter<T>) -> Self {
            Self(inner.enumerate(), PhantomData)
        }
    }

    impl<K: EntityRef, T> Iterator for IntoIter<K, T> {
        type Item = (K, T);

        fn next(&mut self) -> Option<(K, T)> {
            self.0.next().map(|(index, value)| (K::new(index), value))
        }
    }
}

/// A list that is a part of its pool.
pub struct CompactList<T> {
    from: usize,
    len: usize,
    marker: core::marker::PhantomData<T>,
}

pub struct CompactListPool<T>(Vec<T>);

impl<T> CompactListPool<T> {
    pub fn new() -> Self {
        Self(Vec::new())
    }

    pub fn clear(&mut self) {
        self.0.clear();
    }
}

impl<T: Copy> CompactList<T> {
    pub fn from_iter(items: impl IntoIterator<Item = T>, pool: &mut CompactListPool<T>) -> Self {
        let from = pool.0.len();
        pool.0.extend(items);
        let len = pool.0.len() - from;
        Self { from, len, marker: core::marker::PhantomData }
    }

    pub fn len(&self) -> usize {
        self.len
    }

    pub fn as_slice<'a>(&self, pool: &'a CompactListPool<T>) -> &'a [T] {
        &pool.0[self.from..][..self.len]
    }

    pub fn as_mut_slice<'a>(&self, pool: &'a mut CompactListPool<T>) -> &'a mut [T] {
        &mut pool.0[self.from..][..self.len]
    }

    pub fn insert_iter_at(
        &self,
        at: usize,
        items: impl IntoIterator<Item = T>,
        pool: &mut CompactListPool<T>,
    ) -> Self {
        let mut all = self.as_slice(pool).to_vec();
        all.splice(at..at, items);
        Self::from_iter(all, pool)
    }
}

/// A set of entities.
pub struct EntitySet<K>(Vec<bool>, core::marker::PhantomData<K>);

impl<K: EntityRef> EntitySet<K> {
    pub fn new() -> Self {
        Self(Vec::new(), core::marker::PhantomData)
    }

    pub fn clear_and_resize(&mut self, len: usize) {
        self.0.clear();
        self.0.resize(len, false);
    }

    pub fn insert(&mut self, key: K) {
        self.0[key.index()] = true;
    }

    pub fn contains(&self, key: K) -> bool {
        self.0[key.index()]
    }
}
