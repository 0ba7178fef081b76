//! The `MultiMap` of the crate multimap: std's map of vectors with calls of its own.
use crate::multimap::{Counter, Lens, Multimap, Names};
use multimap::{Entry, MultiMap};
use std::hash::{BuildHasher, Hash};

/// It doesn't count its values, so they are counted here.
#[derive(Clone)]
pub struct Counted<K: Eq + Hash, S: BuildHasher> {
    map: MultiMap<K, u64, S>,
    values_len: u64,
}

impl<K: Eq + Hash, S: BuildHasher + Default> Default for Counted<K, S> {
    fn default() -> Self {
        Counted {
            map: MultiMap::default(),
            values_len: 0,
        }
    }
}

impl<K: Eq + Hash, S: BuildHasher> Counted<K, S> {
    #[inline(always)]
    fn push(&mut self, key: K, value: u64) -> bool {
        self.values_len += 1;
        match self.map.entry(key) {
            Entry::Occupied(mut entry) => {
                entry.get_vec_mut().push(value);
                true
            }
            Entry::Vacant(entry) => {
                entry.insert_vec(vec![value]);
                false
            }
        }
    }

    #[inline(always)]
    fn put(&mut self, key: K, value: u64) -> Option<u64> {
        self.values_len += 1;
        match self.map.entry(key) {
            Entry::Occupied(mut entry) => {
                let values = entry.get_vec_mut();
                let old = values.first().copied();
                self.values_len -= values.len() as u64;
                values.clear();
                values.push(value);
                old
            }
            Entry::Vacant(entry) => {
                entry.insert_vec(vec![value]);
                None
            }
        }
    }

    fn lens_of(&self) -> Lens {
        Lens {
            keys: self.map.len() as u64,
            values: self.values_len,
        }
    }
}

impl<S: BuildHasher + Default> Multimap for Counted<u64, S> {
    #[inline(always)]
    fn append(&mut self, key: u64, value: u64) -> bool {
        self.push(key, value)
    }

    #[inline(always)]
    fn insert(&mut self, key: u64, value: u64) -> Option<u64> {
        self.put(key, value)
    }

    #[inline(always)]
    fn remove_all(&mut self, key: u64, each: impl FnMut(u64)) {
        let values = self.map.remove(&key).unwrap_or_default();
        self.values_len -= values.len() as u64;
        values.into_iter().for_each(each);
    }

    #[inline(always)]
    fn retain(&mut self, mut keeps: impl FnMut(u64) -> bool) {
        let mut left = 0;
        self.map.retain(|_, value| {
            let is_kept = keeps(*value);
            left += u64::from(is_kept);
            is_kept
        });
        self.values_len = left;
    }

    #[inline(always)]
    fn get(&self, key: u64) -> Option<u64> {
        self.map.get(&key).copied()
    }

    #[inline(always)]
    fn for_each_of(&self, key: u64, mut each: impl FnMut(u64)) {
        for value in self.map.get_vec(&key).map_or(&[][..], Vec::as_slice) {
            each(*value);
        }
    }

    #[inline(always)]
    fn for_each_of_mut(&mut self, key: u64, mut each: impl FnMut(&mut u64)) {
        for value in self
            .map
            .get_vec_mut(&key)
            .map_or(&mut [][..], Vec::as_mut_slice)
        {
            each(value);
        }
    }

    #[inline(always)]
    fn for_each(&self, mut each: impl FnMut(u64, u64)) {
        for (key, values) in &self.map {
            for value in values {
                each(*key, *value);
            }
        }
    }

    #[inline(always)]
    fn for_each_mut(&mut self, mut each: impl FnMut(u64, &mut u64)) {
        for (key, values) in &mut self.map {
            for value in values {
                each(*key, value);
            }
        }
    }

    #[inline(always)]
    fn for_each_key(&self, mut each: impl FnMut(u64)) {
        self.map.keys().for_each(|key| each(*key));
    }

    #[inline(always)]
    fn for_each_list(&self, each: impl FnMut(u64, u64)) {
        self.for_each(each);
    }

    fn from_pairs(pairs: impl Iterator<Item = (u64, u64)>) -> Self {
        let values_len = pairs.size_hint().0 as u64;
        Counted {
            map: pairs.collect(),
            values_len,
        }
    }

    fn extend(&mut self, pairs: impl Iterator<Item = (u64, u64)>) {
        self.values_len += pairs.size_hint().0 as u64;
        self.map.extend(pairs);
    }

    fn lens(&self) -> Lens {
        self.lens_of()
    }
}

impl<S: BuildHasher + Default> Counter for Counted<u64, S> {
    #[inline(always)]
    fn count(&mut self, key: u64) -> u64 {
        match self.map.entry(key) {
            Entry::Occupied(entry) => {
                let count = entry.into_mut();
                *count += 1;
                *count
            }
            Entry::Vacant(entry) => {
                self.values_len += 1;
                *entry.insert(1)
            }
        }
    }

    fn lens(&self) -> Lens {
        self.lens_of()
    }
}

impl<S: BuildHasher + Default> Names for Counted<String, S> {
    #[inline(always)]
    fn append(&mut self, name: &str, value: u64) -> bool {
        self.push(name.to_string(), value)
    }

    #[inline(always)]
    fn insert(&mut self, name: &str, value: u64) -> Option<u64> {
        self.put(name.to_string(), value)
    }

    #[inline(always)]
    fn get(&self, name: &str) -> Option<u64> {
        self.map.get(name).copied()
    }

    fn lens(&self) -> Lens {
        self.lens_of()
    }
}
