//! `std` for the store's Rust: everything of the real one, with a HashMap and a HashSet that keep insertion order.
//! The crates below depend on this one under the name `std`, so their text stays as it is.
pub use ::std::*;

pub mod collections {
    pub use ::std::collections::*;
    use ::std::hash::Hash;
    use ::std::ops::{Deref, DerefMut};
    use indexmap::{IndexMap, IndexSet};

    #[derive(Debug, Clone)]
    pub struct HashMap<K, V>(IndexMap<K, V>);

    #[derive(Debug, Clone)]
    pub struct HashSet<T>(IndexSet<T>);

    impl<K: Hash + Eq, V> HashMap<K, V> {
        pub fn new() -> Self {
            Self::default()
        }

        /// IndexMap's own `remove` moves the last entry into the gap; this one keeps the order.
        pub fn remove(&mut self, key: &K) -> Option<V> {
            self.0.shift_remove(key)
        }
    }

    impl<T: Hash + Eq> HashSet<T> {
        pub fn new() -> Self {
            Self::default()
        }

        pub fn remove(&mut self, value: &T) -> bool {
            self.0.shift_remove(value)
        }
    }

    impl<K, V> Default for HashMap<K, V> {
        fn default() -> Self {
            Self(IndexMap::default())
        }
    }

    impl<T> Default for HashSet<T> {
        fn default() -> Self {
            Self(IndexSet::default())
        }
    }

    impl<K, V> Deref for HashMap<K, V> {
        type Target = IndexMap<K, V>;
        fn deref(&self) -> &IndexMap<K, V> {
            &self.0
        }
    }

    impl<K, V> DerefMut for HashMap<K, V> {
        fn deref_mut(&mut self) -> &mut IndexMap<K, V> {
            &mut self.0
        }
    }

    impl<T> Deref for HashSet<T> {
        type Target = IndexSet<T>;
        fn deref(&self) -> &IndexSet<T> {
            &self.0
        }
    }

    impl<T> DerefMut for HashSet<T> {
        fn deref_mut(&mut self) -> &mut IndexSet<T> {
            &mut self.0
        }
    }

    impl<T> IntoIterator for HashSet<T> {
        type Item = T;
        type IntoIter = indexmap::set::IntoIter<T>;
        fn into_iter(self) -> Self::IntoIter {
            self.0.into_iter()
        }
    }
}
