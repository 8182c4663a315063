//! `std::collections::BTreeMap` of Rattle: a map whose growth can fail. It is a list in the order of the keys: a search halves it, an insertion and a
//! removal shift what has greater keys.

use super::alloc::{AllocFailed, Global};
use super::marker::PhantomData;

/// Values by their keys.
pub struct BTreeMap<K, V, A = Global> {
    items: ::alloc::vec::Vec<(K, V)>,
    alloc: PhantomData<A>,
}

impl<K: Ord, V> BTreeMap<K, V> {
    /// No value, in no block.
    pub const fn new(_: Global) -> BTreeMap<K, V> {
        BTreeMap { items: ::alloc::vec::Vec::new(), alloc: PhantomData }
    }

    /// How many values there are.
    pub fn len(&self) -> usize {
        self.items.len()
    }

    /// Whether there is none.
    pub fn is_empty(&self) -> bool {
        self.items.is_empty()
    }

    /// The place of a key, or the place where it would be.
    fn place(&self, key: &K) -> Result<usize, usize> {
        self.items.binary_search_by(|(other, _)| other.cmp(key))
    }

    /// Whether there is a value for this key.
    pub fn contains_key(&self, key: &K) -> bool {
        self.place(key).is_ok()
    }

    /// The value for this key.
    pub fn get(&self, key: &K) -> Option<&V> {
        self.place(key).ok().map(|at| &self.items[at].1)
    }

    /// The value for this key, to be changed.
    pub fn get_mut(&mut self, key: &K) -> Option<&mut V> {
        self.place(key).ok().map(|at| &mut self.items[at].1)
    }

    /// Keeps a value for this key, and returns the one before. If there is none and memory is refused, key and value come back and the map is as it was.
    pub fn insert(&mut self, key: K, value: V) -> Result<Option<V>, AllocFailed<(K, V)>> {
        match self.place(&key) {
            Ok(at) => Ok(Some(core::mem::replace(&mut self.items[at].1, value))),
            Err(at) => {
                if self.items.try_reserve(1).is_err() {
                    return Err(AllocFailed { value: (key, value) });
                }
                self.items.insert(at, (key, value));
                Ok(None)
            }
        }
    }

    /// Removes the value for this key, and returns it.
    pub fn remove(&mut self, key: &K) -> Option<V> {
        self.place(key).ok().map(|at| self.items.remove(at).1)
    }
}
