//! The map of which ours is a port.
use crate::multimap::{Counter, Lens, Multimap, Names, Queue};
use ordered_multimap::ListOrderedMultimap;
use std::hash::{BuildHasher, Hash};

/// A type of this crate around it, for the traits of this crate.
#[derive(Clone)]
pub struct Original<K, S>(ListOrderedMultimap<K, u64, S>);

impl<K: Eq + Hash, S: BuildHasher + Default> Default for Original<K, S> {
    fn default() -> Self {
        Original(ListOrderedMultimap::with_hasher(S::default()))
    }
}

impl<K: Eq + Hash, S: BuildHasher> Original<K, S> {
    fn lens_of(&self) -> Lens {
        let (keys, values) = (self.0.keys_len() as u64, self.0.values_len() as u64);
        Lens { keys, values }
    }
}

impl<S: BuildHasher + Default> Multimap for Original<u64, S> {
    #[inline(always)]
    fn append(&mut self, key: u64, value: u64) -> bool {
        self.0.append(key, value)
    }

    #[inline(always)]
    fn insert(&mut self, key: u64, value: u64) -> Option<u64> {
        self.0.insert(key, value)
    }

    #[inline(always)]
    fn remove_all(&mut self, key: u64, each: impl FnMut(u64)) {
        self.0.remove_all(&key).for_each(each);
    }

    #[inline(always)]
    fn remove(&mut self, key: u64) -> Option<u64> {
        self.0.remove(&key)
    }

    #[inline(always)]
    fn retain(&mut self, mut keeps: impl FnMut(u64) -> bool) {
        self.0.retain(|_, value| keeps(*value));
    }

    #[inline(always)]
    fn get(&self, key: u64) -> Option<u64> {
        self.0.get(&key).copied()
    }

    #[inline(always)]
    fn for_each_of(&self, key: u64, mut each: impl FnMut(u64)) {
        for value in self.0.get_all(&key) {
            each(*value);
        }
    }

    #[inline(always)]
    fn for_each_of_mut(&mut self, key: u64, mut each: impl FnMut(&mut u64)) {
        for value in self.0.get_all_mut(&key) {
            each(value);
        }
    }

    #[inline(always)]
    fn for_each(&self, mut each: impl FnMut(u64, u64)) {
        for (key, value) in &self.0 {
            each(*key, *value);
        }
    }

    #[inline(always)]
    fn for_each_mut(&mut self, mut each: impl FnMut(u64, &mut u64)) {
        for (key, value) in &mut self.0 {
            each(*key, value);
        }
    }

    #[inline(always)]
    fn for_each_key(&self, mut each: impl FnMut(u64)) {
        for key in self.0.keys() {
            each(*key);
        }
    }

    #[inline(always)]
    fn for_each_list(&self, mut each: impl FnMut(u64, u64)) {
        for (key, values) in self.0.pairs() {
            for value in values {
                each(*key, *value);
            }
        }
    }

    fn from_pairs(pairs: impl Iterator<Item = (u64, u64)>) -> Self {
        Original(pairs.collect())
    }

    fn extend(&mut self, pairs: impl Iterator<Item = (u64, u64)>) {
        self.0.extend(pairs);
    }

    fn lens(&self) -> Lens {
        self.lens_of()
    }
}

impl<S: BuildHasher + Default> Counter for Original<u64, S> {
    #[inline(always)]
    fn count(&mut self, key: u64) -> u64 {
        *self
            .0
            .entry(key)
            .and_modify(|count| *count += 1)
            .or_insert(1)
    }

    fn lens(&self) -> Lens {
        self.lens_of()
    }
}

impl<S: BuildHasher + Default> Queue for Original<u64, S> {
    #[inline(always)]
    fn append(&mut self, key: u64, value: u64) -> bool {
        self.0.append(key, value)
    }

    #[inline(always)]
    fn pop_front(&mut self) -> Option<(u64, bool)> {
        let (key, value) = self.0.pop_front()?;
        Some((value, key.is_owned()))
    }

    fn lens(&self) -> Lens {
        self.lens_of()
    }
}

impl<S: BuildHasher + Default> Names for Original<String, S> {
    #[inline(always)]
    fn append(&mut self, name: &str, value: u64) -> bool {
        self.0.append(name.to_string(), value)
    }

    #[inline(always)]
    fn insert(&mut self, name: &str, value: u64) -> Option<u64> {
        self.0.insert(name.to_string(), value)
    }

    #[inline(always)]
    fn get(&self, name: &str) -> Option<u64> {
        self.0.get(name).copied()
    }

    fn lens(&self) -> Lens {
        self.lens_of()
    }
}
