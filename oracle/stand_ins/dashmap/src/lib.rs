//! Stand-in for `dashmap`: one thread, so a hash map behind a cell.

use std::{
    cell::{Ref, RefCell, RefMut},
    collections::HashMap,
    hash::Hash,
};

pub struct DashMap<K, V> {
    map: RefCell<HashMap<K, V>>,
}

pub struct Entry<'a, K, V> {
    map: RefMut<'a, HashMap<K, V>>,
    key: K,
}

impl<K: Eq + Hash, V> DashMap<K, V> {
    // As in `dashmap`, where the old files call it.
    #[allow(clippy::new_without_default)]
    pub fn new() -> Self {
        Self { map: RefCell::new(HashMap::new()) }
    }

    pub fn get(&self, key: &K) -> Option<Ref<'_, V>> {
        Ref::filter_map(self.map.borrow(), |map| map.get(key)).ok()
    }

    pub fn get_mut(&self, key: &K) -> Option<RefMut<'_, V>> {
        RefMut::filter_map(self.map.borrow_mut(), |map| map.get_mut(key)).ok()
    }

    pub fn entry(&self, key: K) -> Entry<'_, K, V> {
        Entry { map: self.map.borrow_mut(), key }
    }
}

impl<'a, K: Eq + Hash, V: Default> Entry<'a, K, V> {
    pub fn or_default(self) -> RefMut<'a, V> {
        RefMut::map(self.map, |map| map.entry(self.key).or_default())
    }
}
