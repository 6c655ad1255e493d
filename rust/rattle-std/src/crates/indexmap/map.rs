//! A map from keys to values. Its entries are numbered in the order in which they were added.

use super::Entries;
use crate::alloc::{AllocError, AllocFailed, Global};
use core::borrow::Borrow;
use core::hash::Hash;
use core::iter::Map;
use core::slice::Iter;

/// A map from keys to values. Its entries are numbered in the order in which they were added.
pub struct IndexMap<K, V>(Entries<(K, V)>);

impl<K: Eq + Hash, V> IndexMap<K, V> {
    /// Returns an empty map.
    pub fn new(alloc: Global) -> IndexMap<K, V> {
        IndexMap(Entries::new(alloc))
    }

    /// Makes room for `additional` new keys.
    ///
    /// # Errors
    ///
    /// Returns `AllocError` if memory runs out.
    pub fn reserve(&mut self, additional: usize) -> Result<(), AllocError> {
        self.0.reserve(additional)
    }

    /// Returns the index of `key`, or `None` if the map does not have the key.
    fn find<Q: ?Sized + Eq + Hash>(&self, key: &Q) -> Option<usize>
    where
        K: Borrow<Q>,
    {
        let hash = self.0.table.hash_of(key);
        self.0.find(hash, |entry| entry.0.borrow() == key)
    }

    /// Returns whether the map has the key `key`.
    pub fn contains_key<Q: ?Sized + Eq + Hash>(&self, key: &Q) -> bool
    where
        K: Borrow<Q>,
    {
        self.find(key).is_some()
    }

    /// Returns the value of `key`, or `None` if the map does not have the key.
    pub fn get<Q: ?Sized + Eq + Hash>(&self, key: &Q) -> Option<&V>
    where
        K: Borrow<Q>,
    {
        let index = self.find(key)?;
        Some(&self.0.list[index].1)
    }

    /// Sets the value of `key` to `value`. Returns the former value of `key`, or `None` if `key` is
    /// new.
    ///
    /// # Errors
    ///
    /// Returns `AllocFailed` with the key and the value if memory runs out. In this case, the map
    /// is unchanged.
    pub fn insert(&mut self, key: K, value: V) -> Result<Option<V>, AllocFailed<(K, V)>> {
        let hash = self.0.table.hash_of(&key);
        if let Some(index) = self.0.find(hash, |entry| entry.0 == key) {
            let former = core::mem::replace(&mut self.0.list[index].1, value);
            return Ok(Some(former));
        }
        self.0.push(hash, (key, value))?;
        Ok(None)
    }

    /// Returns an iterator over the keys and the values of all entries, in the order of their
    /// indices.
    pub fn iter(&self) -> Pairs<'_, K, V> {
        self.0.list.iter().map(|(key, value)| (key, value))
    }
}

/// An iterator over the keys and the values of a map.
pub type Pairs<'v, K, V> = Map<Iter<'v, (K, V)>, fn(&'v (K, V)) -> (&'v K, &'v V)>;
